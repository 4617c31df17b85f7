/* A target whose cache is written out, for a check by a ledger. */
#ifndef FLUSHED_H
#define FLUSHED_H

#include "identity.h"
#include "lane.h"

/* How long what is told of it may be. */
enum { FLUSHED_WORDS = MAX_DRIVE + 80 };

/* Has the cache of a job's target written out, once what was in flight at a taking is written no more:
 * what is read from then on stays. The words are where its blocks lie, and on which drive; or why that
 * couldn't be done. */
bool have_flushed(struct lane *lanes, size_t lane_count, uint32_t job, char words[FLUSHED_WORDS]);

#endif
