/* What an agent says to its witness, behind the welcome. */
#ifndef ANSWERS_H
#define ANSWERS_H

#include "executor.h"

#include <stddef.h>

/* Says these bytes, in one piece where several threads do. Where nobody hears them, the agent gives
 * up. */
void answer(const void *bytes, size_t length);

/* Says what became of writes, in one piece where they are not too many. */
void tell_witness(void *none, const struct ending *endings, size_t count);

#endif
