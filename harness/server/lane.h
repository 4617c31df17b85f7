/* The way of one job to its target: a thread that carries out its orders, those of a run behind
 * those of the run before. */
#ifndef LANE_H
#define LANE_H

#include "busy.h"
#include "node.h"
#include "target.h"

#include <stdatomic.h>

/* So many writes of a job are out at once at most, and so many orders are handed over in one go. */
enum { MOST_OUT = 64, MOST_ORDERS = 64, MOST_WHY = 160 };

/* How many writes of a run have been told to the node, as done and as failed, and why the first of these
 * did. */
struct ends {
    uint64_t run, done, failed;
    char why[MOST_WHY];
};

struct lane {
    struct node *node;
    const struct target *target;
    uint32_t job;
    uint64_t offset, stride, flush; /* a stride of 0: one block */
    bool torn;                      /* takes blocks that a cut may tear */
    atomic_uint_fast64_t done;      /* writes, of all its runs */
    pthread_mutex_t lock;           /* of the next four */
    struct ends ends;               /* of the last run */
    bool is_taken;                  /* a state of it was taken, and is here until the last order is out; */
    uint8_t state[STATE_BYTES];
    struct busy busy;               /* then what it has in flight is carried out again */
    /* The rest is its own. */
    uint64_t run, block_size; /* those of the orders that came last */
    bool is_refused;          /* those can't be carried out, */
    char why[MOST_WHY];       /* for this reason */
    int orders;               /* where they go to */
    int stretches[2];         /* a pipe: to the thread, what it is to carry out next */
    size_t count;             /* orders that wait to be handed over */
    struct iovec pieces[2 * MOST_ORDERS];
    uint8_t heads[MOST_ORDERS][16];
};

/* Starts its thread. The rest of the fields is set by then. Of a job without a target it has none, and
 * each of its writes fails. */
void start_lane(struct lane *lane);

/* Takes an order: a record of that kind, whose body has to stay until the lane is flushed. Where it
 * can't be carried out it is told as failed. */
void take_order(struct lane *lane, const struct record *record);

/* Hands over what it took. */
void flush_lane(struct lane *lane);

/* The ends of its last run. Those that are counted were told to the node: what comes to it from now
 * on finds them. */
struct ends ends_of(struct lane *lane);

/* Tells that a write has ended. */
void tell_end(struct node *node, enum record_kind kind, uint64_t run, uint32_t job, uint64_t write);

#endif
