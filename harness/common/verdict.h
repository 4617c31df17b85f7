/* What a check comes to, in a line that says all of it. */
#ifndef VERDICT_H
#define VERDICT_H

#include "kinds.h"
#include "map.h"
#include "state.h"

#include <stdbool.h>
#include <stdint.h>

/* How long the words are that tell faults in flight from those at rest. */
enum { MAX_LOSSES = 128 };

struct verdict {
    bool is_report;           /* there is a report of the whole region; else `drive` says why there is none */
    uint64_t checked, faults; /* blocks that had to hold something, and those of them that don't or can't be read */
    uint64_t at_rest, unread; /* of the faults: no write since the last check had come to these; these can't be read */
    char kinds[KIND_WORDS];   /* of the faults, and how many of each: `lost 4 torn 1` */
    uint64_t other_run;       /* where all faults hold whole writes of one other run: that run; else 0 */
};

/* What a map says of the whole. */
struct verdict verdict_of(const struct map *map);

/* The status that it comes to: sound, faults, or no verdict where no block had to hold anything, or
 * where a later run has written over what this one had written, by a state that lies beside this
 * one; and failed without a report. */
int status_of(const struct verdict *verdict, const char *state, const struct kept *kept);

/* Spells how many faults a ledger's check found in flight and at rest. */
void spell_losses(const struct verdict *verdict, char text[MAX_LOSSES]);

/* Prints the line, behind what the map said, with what is known of a cut since the run: by the
 * number of the start of the machine that writes and reads. */
int tell_verdict(const struct map *map, const char *state, const struct kept *kept, const char boot[MAX_BOOT]);

#endif
