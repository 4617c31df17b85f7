/* Carries out the orders that come on a stream, and tells what became of each: as many at once as
 * the job's depth, with one thread and the kernel's io_uring where it has that, and else with
 * threads, as a folder's files always are. What only goes to memory (without O_DIRECT) is written by
 * one thread, or by two in turns: no write waits for a device there, and a pool, the kernel's too, is
 * slower by far. */
#ifndef EXECUTOR_H
#define EXECUTOR_H

#include "region.h"
#include "ring.h"
#include "way.h"
#include "slots.h"
#include "target.h"

/* What became of a write: it is there, whole, or it failed. What is in doubt has failed. */
struct ending {
    uint64_t write, block;
    bool is_done;
};

/* A depth from which on it pays to do side by side what only goes to memory. */
enum { DEEP = 16 };

struct executor {
    const struct target *target;
    struct region region;
    uint64_t depth;
    /* So many writes are told as done behind one flush, or fewer where no other is out; 0: each as
     * soon as the target says so. */
    uint64_t flush;
    /* So many writes are at the target at once, at most; what else was ordered waits here, and goes
     * there as soon as one of them has ended. 0: as many as the depth. */
    uint64_t queue;
    enum by by;     /* BY_ANY: by a ring where the kernel gives one, and else by threads */
    bool may_share; /* two threads may share what goes to memory: the depth is a job's, and the only one's */
    int orders;     /* the stream that they come on */
    bool summed;    /* it is a link, on which each has its sum */
    void *whose;    /* is given to these two */
    void (*tell)(void *whose, const struct ending *endings, size_t count);
    /* Where it isn't NULL: why a write failed, before its end is told. */
    void (*tell_why)(void *whose, const char *why);
    /* The stream has ended, and this stood behind its last order. */
    void (*tell_last)(void *whose, const void *bytes, size_t length);
    struct slots slots;
};

/* Carries out all orders, and returns once the stream and the last write have ended. A write that
 * never comes back is waited for; the ends of the others and of the stream are told all the same,
 * but for those of one thread in memory, which waits with it. */
void carry_out(struct executor *executor);

/* The ways, which share the calls below. */
void carry_out_by_turns(struct executor *executor);
void carry_out_by_ring(struct executor *executor, struct ring *ring);
void carry_out_by_threads(struct executor *executor);

/* Where the order of a slot goes. A block that the job hasn't is given up on. */
uint64_t place_of_slot(const struct executor *executor, size_t slot);

/* What became of the order of a slot, by what its call answered: a number of bytes, or an error as
 * a negative number. Where it failed, that is said. */
struct ending ending_of(const struct executor *executor, size_t slot, long answer);

/* Tells what stood behind the last order. */
void end_stream(const struct executor *executor);

#endif
