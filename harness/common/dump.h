/* The bytes of faulty blocks, and of the writes that they had to hold, each in a file of its own. */
#ifndef DUMP_H
#define DUMP_H

#include "map.h"
#include "reading.h"

#include <stdint.h>

/* So many writes of a block are kept: its last completed one, and of those in flight the first. */
enum { MOST_WRITES = 8 };

/* A block that is at fault, and which writes it may hold. */
struct faulty {
    uint64_t block;
    uint64_t writes[MOST_WRITES];
    size_t count;
};

/* The first faulty blocks that a map tells of, but for those that can't be read. */
struct dump {
    const char *place; /* how the names of its files begin */
    uint64_t size;     /* of a block */
    struct faulty *blocks;
    size_t count, next; /* how many there are, and which of them comes next */
    struct asked asked; /* these blocks of the region */
};

/* Finds as many of them as there are, up to `most`. Where there is none, there is nothing to keep. */
struct dump open_dump(const char *place, const struct map *map, uint64_t most);

/* What takes the bytes of these blocks, and keeps each in PLACE.block-B. */
struct sink sink_of_dump(struct dump *dump);

/* Keeps the bytes of each write W that they may hold in PLACE.block-B.write-W, as `drive` orders
 * them. */
void keep_wanted(const struct dump *dump, uint64_t run, const struct job *job);

void free_dump(struct dump *dump);

#endif
