#include "busy.h"

#include "clock.h"
#include "files.h"

#include <inttypes.h>
#include <stdio.h>
#include <stdlib.h>
#include <string.h>
#include <time.h>
#include <unistd.h>

/* What O_DIRECT wants of a block's place in memory; and between two writes to memory alone, which wait for
 * no device, so many nanoseconds pass. */
enum { PAGE = 4096, PAUSE = 1000000 };

/* Whether a slot has a write that is in flight by the state, with all its bytes. What stands behind the last
 * order has come over one that is free, and one that was never used has any bytes. */
static bool is_there(const struct executor *executor, size_t slot, const uint8_t *state) {
    struct order order = order_of(&executor->slots, slot);
    return order.block < executor->region.blocks && is_in_flight(state, order.write) && is_of_write(state, order.write, order.block, block_of(&executor->slots, slot), executor->region.block_size);
}

void copy_in_flight(struct busy *busy, const struct executor *executor, const uint8_t *state, size_t length) {
    uint64_t block_size = executor->region.block_size;
    size_t most = executor->slots.count;
    void *blocks = NULL;
    *busy = (struct busy){.target = executor->target, .block_size = block_size, .flush = executor->flush};
    if (!is_state(state, length)) return;
    busy->in_flight = issued_in(state) - done_in(state);
    busy->places = calloc(most, sizeof *busy->places);
    if (!busy->in_flight || !busy->places || posix_memalign(&blocks, PAGE, most * block_size)) return;
    busy->blocks = blocks;
    for (size_t slot = 0; slot < most; slot++) {
        if (!is_there(executor, slot, state)) continue;
        memcpy(busy->blocks + busy->count * block_size, block_of(&executor->slots, slot), block_size);
        busy->places[busy->count++] = place_of(&executor->region, order_of(&executor->slots, slot).block);
    }
}

static bool write_file(const struct busy *busy, size_t at) {
    return write_block_file(busy->target, busy->blocks + at * busy->block_size, busy->block_size, busy->places[at]) == (ssize_t)busy->block_size;
}

static bool write_one(const struct busy *busy, size_t at) {
    const struct iovec piece = {busy->blocks + at * busy->block_size, busy->block_size};
    off_t place = (off_t)busy->places[at];
    ssize_t count = busy->target->is_atomic ? pwritev2(busy->target->fd, &piece, 1, place, ATOMIC_FLAG) : pwrite(busy->target->fd, piece.iov_base, piece.iov_len, place);
    if (!busy->target->is_direct) nanosleep(&(struct timespec){0, PAUSE}, NULL);
    return count == (ssize_t)busy->block_size;
}

/* Writes its own part of them in turn: no other thread writes to these blocks. */
static void *write_again(void *given) {
    const struct worker *worker = given;
    const struct busy *busy = worker->busy;
    bool goes_on = true;
    size_t at = worker->first;
    for (uint64_t count = 1; goes_on && !busy->is_over && (!busy->until || milliseconds() < busy->until); count++) {
        goes_on = busy->target->is_folder ? write_file(busy, at) : write_one(busy, at);
        if (goes_on && busy->flush && count % busy->flush == 0) goes_on = fdatasync(busy->target->fd) == 0;
        at += busy->threads;
        if (at >= busy->count) at = worker->first;
    }
    return NULL;
}

void start_busy(struct busy *busy, uint64_t most) {
    size_t count = busy->count < MOST_BUSY ? busy->count : MOST_BUSY, started = 0;
    if (most && most < count) count = most;
    if (busy->count && !busy->target->is_direct) count = 1;
    busy->threads = count;
    for (size_t at = 0; at < count; at++) {
        struct worker *worker = &busy->workers[started];
        *worker = (struct worker){.busy = busy, .first = at};
        if (pthread_create(&worker->thread, NULL, write_again, worker) == 0) started++;
    }
    busy->started = started;
}

void end_busy(struct busy *busy) {
    busy->is_over = true;
}

void stop_busy(struct busy *busy) {
    end_busy(busy);
    for (size_t at = 0; at < busy->started; at++) pthread_join(busy->workers[at].thread, NULL);
    free(busy->blocks), free(busy->places);
    busy->blocks = NULL, busy->places = NULL, busy->count = busy->started = 0;
}

void describe_busy(const struct busy *busy, char *words, size_t size) {
    if (!busy->in_flight) snprintf(words, size, "nothing is in flight: the drive is idle when it is cut");
    else if (!busy->count) snprintf(words, size, "the %" PRIu64 " writes in flight aren't here any more: the drive is idle when it is cut", busy->in_flight);
    else snprintf(words, size, "of %" PRIu64 " writes in flight %zu are carried out again and again until the power goes", busy->in_flight, busy->count);
}
