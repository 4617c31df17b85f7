/* A run: the orders of `drive` go to an agent, and what became of them comes back, until the link
 * ends, falls silent, or the state is to be taken. */
#ifndef RUN_H
#define RUN_H

#include "job.h"
#include "link.h"
#include "options.h"
#include "power.h"
#include "state.h"

#include <stdbool.h>
#include <stdint.h>

/* What becomes of one. */
struct tally {
    uint64_t run, ordered, told, failed;
    bool is_cut;    /* the link ended or fell silent, and else the state was taken without */
    bool was_early; /* and did so before the power was to be cut */
    bool has_fallen; /* once the power was to be cut, a write failed */
    uint64_t milliseconds;
    size_t state_length;
    uint8_t state[MAX_STATE];
};

/* The writes that were out at the end. */
uint64_t in_flight(const struct tally *tally);

/* What is to be kept of a run. */
struct kept kept_by(const struct tally *tally, const struct job *job, const struct link *link);

/* What a run of a job wants of its agent: a number of its own, among the rest. */
struct hello hello_to_write(const struct options *options, const struct job *job, const struct region *region);

/* Runs a job over a link, which it ends, until the power is cut; where nothing cuts it the state is
 * taken once enough writes are done. The state stays in the tally, for the caller to keep. */
struct tally run_job(const struct options *options, const struct job *job, struct link *link, struct power *power);

/* Writes tiles of a tour over a link, which it ends, until the power is cut: as many at once as the tiling
 * has, and behind each the next. Their states stand in the tiles' file then. */
struct tiling;
struct tally run_tiles(const struct options *options, struct tiling *tiling, struct link *link, struct power *power);

/* A link over which checks are made: of parts of this region, as many as one likes. It is open once the first
 * was begun. */
struct sitting {
    struct region region;
    struct link link;
    bool is_open;
};

/* Ends it, where it is open: then the agent lets its target go. */
void end_sitting(struct sitting *sitting);

/* Checks by a state, or a ledger, too, what an agent gives back of the part of a sitting's region that
 * begins at this block and is as large as the job's, and keeps what `drive`
 * says of each faulty block. Where the link ends or falls silent within that, it is tried again, until the options'
 * wait is over; a target of the run's that isn't there by then counts as blocks that can't be read.
 * The welcome is the agent's, and empty where it had no target. */
struct map;
struct basis;
void check_part(const struct options *options, const struct job *job, struct sitting *sitting, uint64_t first, const struct basis *basis, struct map *map, struct welcome *welcome);

/* The same of a region, over a link of its own. */
void check_by_link(const struct options *options, const struct job *job, const struct region *region, const struct basis *basis, struct map *map, struct welcome *welcome);

/* Keeps the bytes of as many faulty blocks as the options say, which an agent reads once more, and of
 * the writes that these may hold, in files whose names begin so. */
void dump_by_link(const struct options *options, const struct job *job, const struct region *region, const struct kept *kept, const char *place, const struct map *map);

#endif
