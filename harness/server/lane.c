#include "lane.h"

#include "bytes.h"
#include "executor.h"
#include "fits.h"
#include "options.h"
#include "say.h"
#include "taken.h"

#include <errno.h>
#include <inttypes.h>
#include <stdio.h>
#include <string.h>
#include <unistd.h>

/* The orders of one run, as an executor reads them. */
struct stretch {
    uint64_t run, block_size;
    int orders;
};

/* Whose ends an executor tells. */
struct teller {
    struct lane *lane;
    uint64_t run;
    const struct executor *executor;
};

static struct ended ended_of(enum record_kind kind, uint64_t run, uint32_t job, uint64_t write) {
    struct ended end = {.kind = kind};
    put_64(end.name, run), put_32(end.name + 8, job), put_64(end.name + 12, write);
    return end;
}

void tell_end(struct node *node, enum record_kind kind, uint64_t run, uint32_t job, uint64_t write) {
    struct ended end = ended_of(kind, run, job, write);
    tell_ended(node, &end, 1);
}

/* Counts ends that the node was told, and notes why the first that failed did, where that is said.
 * Those of a run before the last one come late: they don't count. */
static void count_ends(struct lane *lane, uint64_t run, size_t done, size_t failed, const char *why) {
    lane->done += done;
    pthread_mutex_lock(&lane->lock);
    struct ends *ends = &lane->ends;
    if (run > ends->run) *ends = (struct ends){.run = run};
    if (run == ends->run) ends->done += done, ends->failed += failed;
    if (run == ends->run && why && !*ends->why) snprintf(ends->why, sizeof ends->why, "%s", why);
    pthread_mutex_unlock(&lane->lock);
}

static void note_why(void *whose, const char *why) {
    const struct teller *teller = whose;
    count_ends(teller->lane, teller->run, 0, 0, why);
}

struct ends ends_of(struct lane *lane) {
    pthread_mutex_lock(&lane->lock);
    struct ends ends = lane->ends;
    pthread_mutex_unlock(&lane->lock);
    return ends;
}

static void tell_these(void *whose, const struct ending *endings, size_t count) {
    const struct teller *teller = whose;
    struct ended ends[MOST_OUT];
    size_t done = 0;
    for (size_t at = 0; at < count; at++) {
        done += endings[at].is_done;
        ends[at % MOST_OUT] = ended_of(endings[at].is_done ? RECORD_DONE : RECORD_FAILED, teller->run, teller->lane->job, endings[at].write);
        if (at % MOST_OUT == MOST_OUT - 1 || at + 1 == count) tell_ended(teller->lane->node, ends, at % MOST_OUT + 1);
    }
    count_ends(teller->lane, teller->run, done, count - done, NULL);
}

static void tell_last(void *whose, const void *bytes, size_t length) {
    const struct teller *teller = whose;
    (void)bytes, (void)length;
    end_orders(teller->lane, teller->run, teller->executor);
}

static void *work(void *given) {
    struct lane *lane = given;
    struct stretch stretch;
    while (read_all(lane->stretches[0], &stretch, sizeof stretch) == sizeof stretch) {
        struct region region = {stretch.block_size, MOST_BLOCKS, lane->offset, lane->stride ? lane->stride : stretch.block_size};
        struct teller teller = {.lane = lane, .run = stretch.run};
        struct executor executor = {.target = lane->target, .region = region, .depth = MOST_OUT, .flush = lane->flush, .orders = stretch.orders, .whose = &teller,
                                    .tell = tell_these, .tell_why = note_why, .tell_last = tell_last};
        teller.executor = &executor;
        carry_out(&executor);
        close(stretch.orders);
    }
    return NULL;
}

void start_lane(struct lane *lane) {
    pthread_t thread;
    lane->orders = -1;
    pthread_mutex_init(&lane->lock, NULL);
    if (!lane->target) return;
    make_pipe(lane->stretches);
    int error = pthread_create(&thread, NULL, work, lane);
    if (error) give_up("threads", strerror(error));
    pthread_detach(thread);
}

/* Begins the orders of a run. Those of the one before end, and its writes. */
static void begin_run(struct lane *lane, uint64_t run, uint64_t block_size) {
    int ends[2];
    flush_lane(lane);
    if (lane->orders >= 0) close(lane->orders);
    lane->orders = -1, lane->run = run, lane->block_size = block_size;
    lane->is_refused = !is_fit(lane, block_size, lane->why);
    if (lane->is_refused) {
        say("%s: its writes fail", lane->why);
        return;
    }
    make_pipe(ends);
    lane->orders = ends[1];
    struct stretch stretch = {run, block_size, ends[0]};
    if (write_all(lane->stretches[1], &stretch, sizeof stretch)) give_up_by_errno("pipe");
}

void take_order(struct lane *lane, const struct record *record) {
    if (record->length <= ORDER_HEAD) give_up("fiocut_node", "it says an order without a block");
    uint64_t run = get_64(record->body), write = get_64(record->body + 12), block_size = record->length - ORDER_HEAD;
    if (run != lane->run || block_size != lane->block_size) begin_run(lane, run, block_size);
    else if (lane->orders < 0 && !lane->is_refused) give_up("fiocut_node", "it says an order of a run whose state it has taken");
    if (lane->is_refused) {
        tell_end(lane->node, RECORD_FAILED, run, lane->job, write);
        count_ends(lane, run, 0, 1, lane->why);
        return;
    }
    uint8_t *head = lane->heads[lane->count];
    put_64(head, write), put_64(head + 8, get_32(record->body + 20));
    lane->pieces[2 * lane->count] = (struct iovec){head, sizeof lane->heads[0]};
    lane->pieces[2 * lane->count + 1] = (struct iovec){(void *)(uintptr_t)(record->body + ORDER_HEAD), block_size};
    if (++lane->count == MOST_ORDERS) flush_lane(lane);
}

void flush_lane(struct lane *lane) {
    struct iovec *piece = lane->pieces, *end = piece + 2 * lane->count;
    lane->count = 0;
    while (piece < end) {
        ssize_t count = writev(lane->orders, piece, (int)(end - piece));
        if (count < 0 && errno == EINTR) continue;
        if (count < 0) give_up_by_errno("orders");
        for (; piece < end && (size_t)count >= piece->iov_len; piece++) count -= (ssize_t)piece->iov_len;
        if (piece < end) *piece = (struct iovec){(uint8_t *)piece->iov_base + count, piece->iov_len - (size_t)count};
    }
}
