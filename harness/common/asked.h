/* Which blocks of a region are asked for, and those that a check by `drive` asks for. */
#ifndef ASKED_H
#define ASKED_H

#include "child.h"
#include "job.h"
#include "ledger.h"

#include <stdbool.h>
#include <stddef.h>
#include <stdint.h>

/* Of so many blocks from the first one on those whose bits are 1: of each byte the lowest bit stands for the
 * first block. Where there are no bits, all of them. */
struct asked {
    uint64_t first, count;
    const uint8_t *bits;
};

/* How many bytes the bits of so many blocks have. */
size_t bytes_of_bits(uint64_t count);

/* Whether a block, which is one of these, is asked for. */
bool is_asked(const struct asked *asked, uint64_t block);

/* The first one that is asked for from this block on, or the block behind the last one. */
uint64_t next_asked(const struct asked *asked, uint64_t block);

/* Starts a `drive` that is to say by which blocks a check of this job goes: what any other one holds changes
 * nothing of what `drive map` or `drive ledger` says. Where a quarter of a large region that lies in a row is asked
 * for, there is none: then all of it is read sooner. */
struct child start_asking(const struct job *job, const struct region *region, const struct basis *basis);

/* What it says of so many blocks; where there is none, all of them. These are all where `drive` is older and can't say it, which is said once; and
 * where it refuses the job, the state or the ledger: what it says of that will stand in the place of the check's
 * report. Where a signal ended it, the harness gives up. */
struct asked end_asking(struct child *drive, uint64_t blocks);

void free_asked(struct asked *asked);

#endif
