#include "executor.h"

#include "cpu.h"
#include "say.h"

#include <errno.h>
#include <pthread.h>
#include <stdlib.h>
#include <string.h>
#include <unistd.h>

/* From this size of a block on, and where the depth is DEEP, two threads are faster than one. With few
 * writes out, or small ones, it takes longer to hand the turn on than to make them. */
enum { LARGE = 4096 };

/* Who waits for the turn looks for it for a few microseconds before it sleeps, where the C library
 * has that: it is handed on that soon. */
#ifdef PTHREAD_ADAPTIVE_MUTEX_INITIALIZER_NP
#define FREE_TURN PTHREAD_ADAPTIVE_MUTEX_INITIALIZER_NP
#else
#define FREE_TURN PTHREAD_MUTEX_INITIALIZER
#endif

/* The thread that has the turn reads orders and hands the turn on; then it writes what it has read
 * and tells it, while the other one reads. So no block goes from one of them to the other. Who has
 * the turn has all below, and the executor's slots, but for those whose orders were taken. */
struct turns {
    struct executor *executor;
    pthread_mutex_t turn;
    struct iovec *pieces;
    size_t most; /* so many orders are taken in a turn, at most */
    bool is_over;
};

/* What a thread has taken: slots, and what their calls answered. */
struct taken {
    size_t *slots, count;
    long *answers;
    struct ending *endings;
};

/* A flush that succeeds behind one that failed says nothing of what was written before that: so
 * there is but one thread where flushes are asked for. */
static bool are_two(const struct executor *executor) {
    bool gains = executor->may_share && executor->depth >= DEEP && executor->region.block_size >= LARGE;
    return gains && !executor->flush && own_processors() > 1;
}

/* So many orders are taken, and told, at once: as many as a flush is for; else half of a thread's
 * part of the depth, so that the next ones are made while these are written. */
static size_t most_of(const struct executor *executor) {
    uint64_t most = executor->flush ? executor->flush : executor->depth / (are_two(executor) ? 4 : 2);
    if (most > executor->depth) most = executor->depth;
    return most ? most : 1;
}

/* Reads more of the stream. False at its end. */
static bool read_more(struct turns *turns) {
    struct slots *slots = &turns->executor->slots;
    int count = next_room(slots, turns->pieces, 2 * (int)turns->most);
    ssize_t length;
    do length = readv(turns->executor->orders, turns->pieces, count);
    while (length < 0 && errno == EINTR);
    if (length > 0) slots->part += (size_t)length;
    else end_stream(turns->executor);
    return length > 0;
}

/* Takes the orders that have come, and waits for one where there is none. At the stream's end it
 * takes none. */
static void take_orders(struct turns *turns, struct taken *taken) {
    taken->count = 0;
    while (!turns->is_over) {
        while (taken->count < turns->most && next_order(&turns->executor->slots, &taken->slots[taken->count])) taken->count++;
        if (taken->count) break;
        turns->is_over = !read_more(turns);
    }
}

static long write_slot(const struct executor *executor, size_t slot) {
    ssize_t count;
    do count = pwrite(executor->target->fd, block_of(&executor->slots, slot), executor->region.block_size, (off_t)place_of_slot(executor, slot));
    while (count < 0 && errno == EINTR);
    return count < 0 ? -errno : count;
}

/* Writes what was taken and tells it, behind a flush where that is asked for: it fails what it
 * should have kept. */
static void write_and_tell(const struct executor *executor, struct taken *taken) {
    for (size_t at = 0; at < taken->count; at++) taken->answers[at] = write_slot(executor, taken->slots[at]);
    long flush = executor->flush && fdatasync(executor->target->fd) ? -errno : 0;
    for (size_t at = 0; at < taken->count; at++) {
        bool is_lost = flush && taken->answers[at] == (long)executor->region.block_size;
        taken->endings[at] = ending_of(executor, taken->slots[at], is_lost ? flush : taken->answers[at]);
    }
    executor->tell(executor->whose, taken->endings, taken->count);
}

static void *work(void *given) {
    struct turns *turns = given;
    struct taken taken = {.slots = calloc(turns->most, sizeof *taken.slots), .answers = calloc(turns->most, sizeof *taken.answers), .endings = calloc(turns->most, sizeof *taken.endings)};
    if (!taken.slots || !taken.answers || !taken.endings) give_up("memory", strerror(ENOMEM));
    pthread_mutex_lock(&turns->turn);
    while (take_orders(turns, &taken), taken.count) {
        pthread_mutex_unlock(&turns->turn);
        write_and_tell(turns->executor, &taken);
        pthread_mutex_lock(&turns->turn);
        for (size_t at = 0; at < taken.count; at++) give_back(&turns->executor->slots, taken.slots[at]);
    }
    pthread_mutex_unlock(&turns->turn);
    free(taken.slots), free(taken.answers), free(taken.endings);
    return NULL;
}

void carry_out_by_turns(struct executor *executor) {
    struct turns turns = {.executor = executor, .turn = FREE_TURN, .most = most_of(executor)};
    bool has_other = are_two(executor);
    pthread_t other;
    turns.pieces = calloc(2 * turns.most, sizeof *turns.pieces);
    if (!turns.pieces) give_up("memory", strerror(ENOMEM));
    int error = has_other ? pthread_create(&other, NULL, work, &turns) : 0;
    if (error) give_up("threads", strerror(error));
    work(&turns);
    if (has_other) pthread_join(other, NULL);
    free(turns.pieces);
}
