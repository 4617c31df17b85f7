/* Blocks that are wanted of a job's target, for a check or a map. */
#ifndef WANTED_H
#define WANTED_H

#include "lane.h"

/* How many bytes say what is wanted: the job, the first block, how many, and the bytes of one, in
 * four each. */
enum { WANTED_BYTES = 16 };

/* Blocks of this size, from the first one on. */
struct want {
    uint32_t job, first, count, block_size;
};

struct want want_in(const uint8_t *bytes);

/* Whether there can be so many blocks. */
bool is_want(const struct want *want);

/* What was found: the bytes of whole blocks from the first one on, from malloc; or none, and why. */
struct found {
    void *bytes;
    size_t length;
    const char *name, *why; /* of the target; and NULL where there are bytes */
};

/* Reads what is wanted, as far as it can be read, of the target of its job. What was in flight at a taking
 * is written no more then. */
struct found read_wanted(struct lane *lanes, size_t lane_count, const struct want *want);

#endif
