/* Who waits for a trigger, and tells how far the run is. */
#ifndef WATCH_H
#define WATCH_H

#include "drive.h"
#include "job.h"

struct watch {
    struct drive *drive;
    const struct job *job;
    const char *trigger; /* the file that takes the state once it is there, or NULL */
};

/* Holds SIGTERM and SIGINT back, in this thread and those that it starts: from now on they wait for
 * who watches. */
void hold_signals(void);

/* Lets them through again: they then end the program. */
void let_signals_through(void);

/* Starts a thread that takes the state at SIGTERM, at SIGINT and once the trigger's file is there,
 * and says each second how far the run is. */
void start_watch(const struct watch *watch);

#endif
