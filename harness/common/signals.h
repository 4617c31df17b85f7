/* The signals that end a run: its state is taken, and kept. */
#ifndef SIGNALS_H
#define SIGNALS_H

#include <signal.h>

/* SIGINT and SIGTERM; and SIGHUP, unless it is ignored, as nohup has it. */
sigset_t stops(void);

#endif
