/* The targets of a server. FILE.targets beside its note has a line for each job: where its blocks lie,
 * and on which drive, as `tell_drive` tells that, whatever path led there; and a sum over all. So a
 * drive that has taken another one's place or name isn't written over. */
#ifndef TARGETS_H
#define TARGETS_H

#include "options.h"

/* Opens the targets of all jobs, each path once, and says which of them is a job's. Refused are two jobs
 * at one place. The first time it is looked at what they hold, as `open_to_write` does. Later it isn't,
 * since a cut may leave anything there; then the drives have to be the same, in the same order, at the
 * same places, unless `yes` is set. One that doesn't tell which drive it is is looked at each time. Before
 * this has returned, no byte of what was there has changed. */
void open_targets(const struct options *options, struct target targets[MOST_JOBS], size_t target_of[MOST_JOBS]);

#endif
