#include "chunk.h"

#include "sum.h"

#include <endian.h>

struct chunk chunk_of(enum chunk_kind kind, uint64_t number, const void *bytes, size_t length) {
    struct chunk chunk = {htobe64((uint64_t)kind), htobe64(number), 0};
    chunk.sum = htobe64(sum_over(sum_over(0, &chunk, 2 * sizeof chunk.kind), bytes, length));
    return chunk;
}
