/* Reads what a target holds of the blocks of a region that are asked for. */
#ifndef READING_H
#define READING_H

#include "asked.h"
#include "reads.h"
#include "region.h"
#include "target.h"

#include <stdbool.h>

/* Where it goes. */
struct sink {
    void *whose;
    /* The bytes of the next blocks that are asked for. Returns whether more is wanted. */
    bool (*take)(void *whose, const void *bytes, size_t length);
    /* This block, the next one that is asked for, can't be read, or the target ends within it. Returns
     * whether more is wanted. */
    bool (*miss)(void *whose, uint64_t block, const char *why);
};

/* A region that is read, by one thread. */
struct reader {
    const struct target *target;
    struct region region;
    uint64_t most; /* so many blocks that lie one behind the other are read in one go */
    struct reads reads;
};

void open_reader(struct reader *reader, const struct target *target, const struct region *region);

/* Reads these blocks and no other, many at once, and hands them on in their order, up to the last one, or to
 * where no more is wanted. */
void read_asked(struct reader *reader, const struct asked *asked, const struct sink *sink);

void close_reader(struct reader *reader);

#endif
