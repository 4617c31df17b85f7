/* What drive-witness does, for each of its words. Each returns the status that it ends with. */
#ifndef COMMANDS_H
#define COMMANDS_H

#include "job.h"
#include "options.h"

int write_by_agent(const struct options *options, const struct job *job);
int check_by_agent(const struct options *options, const struct job *job);
int map_by_agent(const struct options *options, const struct job *job);

/* A series of one drive. Where it isn't -1, `words` is the way to who cuts the power for several. */
int cycle_by_agent(const struct options *options, const struct job *job, int words);

/* A tour of a drive: regions of the job all over it. */
int tour_by_agent(const struct options *options, const struct job *job);

#endif
