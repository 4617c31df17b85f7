/* The parts in which an agent gives back what the target holds: three numbers of 8 bytes, the high
 * byte first, and what they announce. The third is the sum of all the others. */
#ifndef CHUNK_H
#define CHUNK_H

#include <stddef.h>
#include <stdint.h>

enum chunk_kind {
    CHUNK_BYTES = 1,  /* its other number says how many bytes follow, of the next blocks */
    CHUNK_MISSED = 2, /* this block can't be read; MAX_WHY bytes say why */
    CHUNK_END = 3     /* the region's end */
};

struct chunk {
    uint64_t kind, number, sum;
};

/* The head of a part, of what it announces. */
struct chunk chunk_of(enum chunk_kind kind, uint64_t number, const void *bytes, size_t length);

#endif
