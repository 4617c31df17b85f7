/* Gives checks the blocks that they want, as the targets hold them. */
#ifndef CHECKS_H
#define CHECKS_H

#include "lane.h"

#include <stdatomic.h>

struct checks {
    struct node *node;
    struct lane *lanes; /* of the jobs, by their number */
    size_t lane_count;
    atomic_uint_fast64_t read; /* so many bytes were read for checks */
    int wants[2]; /* a pipe: to the thread, what is wanted, as it stands in a record */
};

/* Starts the thread that reads. The first three fields are set by then. */
void start_checks(struct checks *checks);

/* Takes what a check wants: a record of that kind. */
void take_want(struct checks *checks, const struct record *record);

#endif
