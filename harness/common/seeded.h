/* A job whose random order starts where a series has drawn it, for one run. The text that orders this
 * run is the job file behind lines that say so; a `randseed` that the job file says itself stands behind
 * them, and counts. */
#ifndef SEEDED_H
#define SEEDED_H

#include "job.h"
#include "state.h"

#include <stdint.h>

/* The job by such a text. Where that is too long for a job file, the harness gives up. */
struct job seeded_job(const char *file, const struct job *job, uint64_t seed, char text[MAX_JOB_TEXT]);

/* The job as the run of a state had it: by the text in the state's file, which is the job file, or that
 * behind such lines. Another job file is refused, and another job of it. A bare state has no text: then
 * it is the job as it is. */
struct job job_to_check(const char *path, const struct kept *kept, const struct job *job);

#endif
