/* What is drawn for a cycle of a series: when its power is cut, and the order of its run. Each depends on
 * the series' seed and the cycle's number alone, so that a series which is resumed draws the same. */
#ifndef DRAWING_H
#define DRAWING_H

#include "folder.h"
#include "job.h"
#include "options.h"
#include "state.h"

#include <stdbool.h>
#include <stdint.h>

/* The milliseconds from its first order to its cut. */
uint64_t moment_of(const struct options *options, const struct folder *folder, uint64_t cycle);

/* A number below another one: which one depends on the cycle's number and on how many were drawn for it
 * before, too. */
uint64_t drawn_below(const struct folder *folder, uint64_t cycle, uint64_t number, uint64_t below);

/* Whether a new series of this job draws the orders of its runs: not where that isn't asked for, nor where
 * the job file says the order, which is said. */
bool draws_orders(const struct options *options, const struct job *job);

/* The job as the run of a cycle has it, by a text of its own where orders are drawn. */
struct job job_of_cycle(const struct options *options, const struct folder *folder, const struct job *job, uint64_t cycle, char text[MAX_JOB_TEXT]);

#endif
