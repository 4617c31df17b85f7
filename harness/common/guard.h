/* What must not be written, whatever the user says, and what would be found out only by writes that
 * fail. */
#ifndef GUARD_H
#define GUARD_H

#include "target.h"

/* Refuses a target that is open for writes: one that swap or a loop device lies over, one that can't
 * be written, one that lies in memory, unless it is opened as any program does, and blocks that its
 * device doesn't take, of this size, or of any where that is 0. */
void refuse_unfit(const struct target *target, const struct opening *opening, uint64_t block_size);

#endif
