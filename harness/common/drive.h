/* The program `drive`: it is started, given its input, and told what became of its orders. Its
 * calls may come from many threads. */
#ifndef DRIVE_H
#define DRIVE_H

#include "child.h"
#include "executor.h"
#include "job.h"
#include "notice.h"

#include <pthread.h>
#include <stdbool.h>
#include <stdint.h>

/* What `drive` says last: a state, or a line that says why there is none. */
enum { MAX_LAST = 8192 };

struct drive {
    struct child child;
    pthread_mutex_t lock; /* of all that follows */
    pthread_cond_t changed;
    uint64_t after; /* the state is taken once so many writes are done */
    bool is_taken;         /* it was told to take the state, or has ended */
    uint64_t done, failed; /* writes whose end it was told before that */
    bool is_ended;         /* it gives no more orders */
    uint8_t last[MAX_LAST]; /* what it said last, once it has ended */
    size_t last_length;
};

/* Starts `drive COMMAND RUN JOB`, a check with the job's server and unit, and gives it the job file. */
struct child start_drive(const char *command, uint64_t run, const struct job *job, int pipes);

/* Starts `drive tour`, which orders the writes of many runs of a job at once, and gives it the job file. */
struct child start_tour(const struct job *job);

/* Gives `drive` a text or a state, behind its length. Where it reads no more, that is for its
 * answer to say. */
void feed(const struct child *child, const void *bytes, size_t length);

/* How the orders of a job of this depth come best: by a pipe, 0, or where many go to memory alone by a
 * socket, CHILD_BY_SOCKET. */
int way_of_orders(uint64_t depth, bool cached);

/* Starts `drive write`, which is to take the state once so many writes are done, or all of them
 * where that is 0. Its orders come by this way. */
void open_drive(struct drive *drive, uint64_t run, const struct job *job, uint64_t after, int way);

/* Tells it what became of writes, and that it is to take the state where enough are done or one has
 * failed. Behind that it is told nothing. */
void tell_endings(struct drive *drive, const struct ending *endings, size_t count);

/* Tells it to take the state, once. */
void tell_take(struct drive *drive);

/* Notes what it said last. */
void note_last(struct drive *drive, const void *bytes, size_t length);

/* How many writes are done by now, and whether the state is taken. */
uint64_t done_by_now(struct drive *drive, bool *is_taken);

/* Waits for its state. Where it ends without one, the harness gives up and says why. */
void await_state(struct drive *drive);

#endif
