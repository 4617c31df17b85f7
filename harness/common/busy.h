/* Has a target stay busy until its power is cut. Behind the taking of a state the harness carries out again
 * and again the writes that the state has in flight, and tells nobody of their ends. By the state each of
 * them may stand in its block or not, so no verdict changes; and the drive has writes in flight when it is
 * cut, though taking and keeping the state took a while. */
#ifndef BUSY_H
#define BUSY_H

#include "executor.h"
#include "flight.h"

#include <pthread.h>
#include <stdatomic.h>

/* So many threads write at once, at most. */
enum { MOST_BUSY = 16 };

struct busy {
    const struct target *target;
    uint64_t block_size, flush;
    uint64_t in_flight; /* by the state */
    size_t count;       /* so many of these have their bytes here, */
    uint8_t *blocks;    /* one behind the other, */
    uint64_t *places;   /* and go there */
    uint64_t until;     /* in milliseconds of the clock; 0: without an end */
    atomic_bool is_over;
    size_t threads, started; /* so many share the blocks, and so many there are */
    struct worker {
        struct busy *busy;
        size_t first;
        pthread_t thread;
    } workers[MOST_BUSY];
};

/* Copies the writes that a state has in flight, as far as their bytes are still in the executor's slots.
 * The state was taken, and the executor's stream has ended: it reads no more into them. Of other bytes
 * than a state nothing is in flight. */
void copy_in_flight(struct busy *busy, const struct executor *executor, const uint8_t *state, size_t length);

/* Starts the threads, so many at most where that isn't 0. One whose write fails ends: that may be the
 * cut. */
void start_busy(struct busy *busy, uint64_t most);

/* Has them begin no more writes. */
void end_busy(struct busy *busy);

/* The same, and waits until the last write is over. From then on nothing is written. */
void stop_busy(struct busy *busy);

/* Says in a few words what is done until the power goes. */
void describe_busy(const struct busy *busy, char *words, size_t size);

#endif
