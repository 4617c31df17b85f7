/* Where the blocks of a job lie on a target. */
#ifndef REGION_H
#define REGION_H

#include "job.h"

#include <stdint.h>

struct region {
    uint64_t block_size, blocks;
    uint64_t offset; /* of the first block, from the target's first byte */
    uint64_t stride; /* from the front of a block to that of the next */
};

/* The region of a job, with this offset and stride, or with a stride of one block where it is 0.
 * Where blocks would not lie at multiples of their size, one behind the other, or beyond what a
 * target can have, the harness gives up. */
struct region region_of(const struct job *job, uint64_t offset, uint64_t stride);

/* The byte that a block begins at. */
uint64_t place_of(const struct region *region, uint64_t block);

/* The byte behind the last block. */
uint64_t end_of(const struct region *region);

#endif
