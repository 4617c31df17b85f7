/* What drive-target does, for each of its three words. Each returns the status that it ends
 * with. */
#ifndef COMMANDS_H
#define COMMANDS_H

#include "job.h"
#include "options.h"

/* Writes a job to a target, and keeps the state that is taken of it. */
int write_target(const struct options *options, const struct job *job);

/* Checks a target by a state, or in a full pass, and tells of each faulty block what it holds. A block
 * that can't be read costs no other. */
int check_target(const struct options *options, const struct job *job);

#endif
