/* Whether jobs can be written where a server's targets are. */
#ifndef FITS_H
#define FITS_H

#include "lane.h"

/* A job as it is to be written. */
struct wish {
    uint32_t job, block_size, blocks;
};

/* Whether blocks of this size can be written where a lane writes; else `why` says why not. */
bool is_fit(const struct lane *lane, uint64_t block_size, char why[MOST_WHY]);

/* Whether all of these jobs can be: each has a target, that isn't too short, and no two have a byte of
 * one target; else `why` says why not. */
bool are_fit(const struct lane *lanes, size_t lane_count, const struct wish *wishes, size_t count, char why[MOST_WHY]);

#endif
