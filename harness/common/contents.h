/* What a target holds before it is written. */
#ifndef CONTENTS_H
#define CONTENTS_H

#include "target.h"

/* Gives up where its first mebibyte or its last, where file systems, volumes and partition tables
 * say what they are, hold anything but zeros and stamps of an earlier run; or the first or the last
 * mebibyte of the region, or one of some 256 blocks between them, where a region is given. */
void refuse_other_bytes(const struct target *target, const struct region *region);

/* Whether the 512 bytes of a sector are zeros, or a stamp of a run. */
bool is_of_a_run(const uint8_t *sector);

#endif
