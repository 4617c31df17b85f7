/* Several drives that share one power: a series for each, in a process and a folder of its own. */
#ifndef SEVERAL_H
#define SEVERAL_H

#include "job.h"
#include "options.h"

/* Runs a series for each link, FOLDER/1, FOLDER/2 and so on, all of which write while the power is
 * cut, once, and check once it is there again. Returns the status of the worst. */
int cycle_by_agents(const struct options *options, const struct job *job);

#endif
