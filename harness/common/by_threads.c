#include "executor.h"

#include "files.h"
#include "say.h"

#include <errno.h>
#include <pthread.h>
#include <stdlib.h>
#include <string.h>
#include <unistd.h>

/* One thread reads the orders, and as many carry them out as writes may be at the target at once. All
 * below is under `lock`. */
struct pool {
    struct executor *executor;
    pthread_mutex_t lock;
    pthread_cond_t changed; /* orders wait, a slot is free, or the stream has ended */
    size_t *waiting, first, waiting_count; /* a ring of the slots whose orders wait for a thread */
    size_t *unflushed, unflushed_count, writing;
    struct ending *endings;
    bool is_flushing, is_over;
};

static void tell(struct pool *pool, const struct ending *endings, size_t count) {
    pool->executor->tell(pool->executor->whose, endings, count);
}

/* Flushes what was written, again while there is enough of it or nothing else is out, and tells it.
 * The lock is let go for the flush and the telling. */
static void flush_while_due(struct pool *pool) {
    struct executor *executor = pool->executor;
    while (!pool->is_flushing && pool->unflushed_count && (pool->unflushed_count >= executor->flush || pool->writing == 0)) {
        size_t count = pool->unflushed_count;
        memcpy(pool->waiting + executor->slots.count, pool->unflushed, count * sizeof *pool->unflushed);
        pool->unflushed_count = 0, pool->is_flushing = true;
        pthread_mutex_unlock(&pool->lock);
        long answer = fdatasync(executor->target->fd) ? -errno : (long)executor->region.block_size;
        for (size_t at = 0; at < count; at++) pool->endings[at] = ending_of(executor, pool->waiting[executor->slots.count + at], answer);
        tell(pool, pool->endings, count);
        pthread_mutex_lock(&pool->lock);
        for (size_t at = 0; at < count; at++) give_back(&executor->slots, pool->waiting[executor->slots.count + at]);
        pool->is_flushing = false;
        pthread_cond_broadcast(&pool->changed);
    }
}

/* Writes the block of a slot, in one piece, or as a file. */
static ssize_t write_slot(const struct executor *executor, size_t slot) {
    const struct iovec piece = {block_of(&executor->slots, slot), executor->region.block_size};
    off_t place = (off_t)place_of_slot(executor, slot);
    if (executor->target->is_folder) return write_block_file(executor->target, piece.iov_base, piece.iov_len, (uint64_t)place);
    if (executor->target->is_atomic) return pwritev2(executor->target->fd, &piece, 1, place, ATOMIC_FLAG);
    return pwrite(executor->target->fd, piece.iov_base, piece.iov_len, place);
}

/* Carries out the order of a slot, without the lock, and tells what became of it, or has that wait
 * for a flush. */
static void carry_out_one(struct pool *pool, size_t slot) {
    struct executor *executor = pool->executor;
    pool->writing++;
    pthread_mutex_unlock(&pool->lock);
    ssize_t count = write_slot(executor, slot);
    long answer = count < 0 ? -errno : count;
    bool waits = executor->flush && answer == (long)executor->region.block_size;
    struct ending ending = waits ? (struct ending){0} : ending_of(executor, slot, answer);
    if (!waits) tell(pool, &ending, 1);
    pthread_mutex_lock(&pool->lock);
    pool->writing--;
    if (waits) pool->unflushed[pool->unflushed_count++] = slot;
    else give_back(&executor->slots, slot);
    pthread_cond_broadcast(&pool->changed);
    flush_while_due(pool);
}

static void *work(void *given) {
    struct pool *pool = given;
    pthread_mutex_lock(&pool->lock);
    for (;;) {
        while (!pool->waiting_count && !pool->is_over) pthread_cond_wait(&pool->changed, &pool->lock);
        if (!pool->waiting_count) break;
        size_t slot = pool->waiting[pool->first];
        pool->first = (pool->first + 1) % pool->executor->slots.count;
        pool->waiting_count--;
        carry_out_one(pool, slot);
    }
    pthread_mutex_unlock(&pool->lock);
    return NULL;
}

/* Reads more of the stream, without the lock. False at its end. */
static bool read_more(struct pool *pool, struct iovec *pieces) {
    struct slots *slots = &pool->executor->slots;
    int count;
    while ((count = next_room(slots, pieces, 2 * (int)slots->count)) == 0) pthread_cond_wait(&pool->changed, &pool->lock);
    pthread_mutex_unlock(&pool->lock);
    ssize_t length;
    do length = readv(pool->executor->orders, pieces, count);
    while (length < 0 && errno == EINTR);
    pthread_mutex_lock(&pool->lock);
    if (length <= 0) return false;
    slots->part += (size_t)length;
    for (size_t slot; next_order(slots, &slot); pool->waiting_count++) pool->waiting[(pool->first + pool->waiting_count) % slots->count] = slot;
    pthread_cond_broadcast(&pool->changed);
    return true;
}

static void make_pool(struct pool *pool, struct executor *executor) {
    size_t count = executor->slots.count;
    *pool = (struct pool){.executor = executor, .lock = PTHREAD_MUTEX_INITIALIZER, .changed = PTHREAD_COND_INITIALIZER};
    /* (the other half of `waiting` is what is flushed) */
    pool->waiting = calloc(2 * count, sizeof *pool->waiting);
    pool->unflushed = calloc(count, sizeof *pool->unflushed);
    pool->endings = calloc(count, sizeof *pool->endings);
    if (!pool->waiting || !pool->unflushed || !pool->endings) give_up("memory", strerror(ENOMEM));
}

void carry_out_by_threads(struct executor *executor) {
    struct pool pool;
    pthread_t *threads = calloc(executor->queue, sizeof *threads);
    struct iovec *pieces = calloc(2 * executor->slots.count, sizeof *pieces);
    if (!threads || !pieces) give_up("memory", strerror(ENOMEM));
    make_pool(&pool, executor);
    for (uint64_t at = 0; at < executor->queue; at++) {
        int error = pthread_create(&threads[at], NULL, work, &pool);
        if (error) give_up("threads", strerror(error));
    }
    pthread_mutex_lock(&pool.lock);
    while (read_more(&pool, pieces)) continue;
    pool.is_over = true;
    pthread_cond_broadcast(&pool.changed);
    pthread_mutex_unlock(&pool.lock);
    end_stream(executor);
    for (uint64_t at = 0; at < executor->queue; at++) pthread_join(threads[at], NULL);
    free(threads), free(pieces), free(pool.waiting), free(pool.unflushed), free(pool.endings);
}
