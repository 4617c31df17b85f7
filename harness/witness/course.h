/* A run under way at the witness: what its parts share. */
#ifndef COURSE_H
#define COURSE_H

#include "child.h"
#include "notice.h"
#include "outbox.h"
#include "power.h"
#include "run.h"
#include "tiling.h"

#include <stdbool.h>
#include <stdint.h>

/* So many notices are heard at once. */
enum { NOTICES = 4096 };

struct course {
    const struct options *options;
    const struct job *job;
    struct link *link;
    struct tally *tally;
    struct child drive;
    struct tiling *tiling; /* what it writes are tiles; else NULL */
    struct power *power;
    struct outbox outbox; /* what `drive` has ordered */
    uint8_t heard[NOTICES * TOLD_BYTES]; /* notices that came, and perhaps a part of one */
    size_t heard_length;
    uint64_t unknown_since; /* 0, or since when the first of these is of no open write */
    uint64_t total; /* so many writes there are, */
    uint64_t goal;  /* and the state is taken once so many are told */
    uint64_t began, last_heard, next_line, told_before;
    bool is_taken, is_over;
};

/* Has `drive` take the state, once; or that of each tile. */
void take(struct course *course);

/* Once the states of all tiles are there, `drive` has no more to say: ends its input then. */
void end_tiles(struct course *course);

/* Has `drive` begin as many tiles as can be. */
void open_more(struct course *course);

/* The link has ended, for this reason where it is told: that is the cut, and the state is as of the
 * notices that came. */
void note_cut(struct course *course, const char *why);

/* Reads what the link says, and hands the notices on. */
void take_notices(struct course *course);

/* Hands the notices that are whole on to `drive`, up to the one behind which the state is taken,
 * and where the agent has a `drive` of its own back to that. */
void hand_on(struct course *course);

#endif
