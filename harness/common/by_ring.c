#include "executor.h"

#include "say.h"

#include <errno.h>
#include <stdlib.h>
#include <string.h>

/* What a call of the ring is: a slot's write, or one of these. */
enum { READ = 1u << 20, FLUSH };

struct run {
    struct executor *executor;
    struct ring *ring;
    struct iovec *pieces;
    struct ending *endings;                  /* to be told */
    size_t *ready, first_ready;              /* a ring of the slots whose orders wait for room at the target */
    size_t *unflushed, *flushing;            /* slots that are written, and not told yet */
    size_t told, ready_count, unflushed_count, flushing_count, writing;
    bool is_reading, is_over;
};

static void *room_for(size_t count, size_t size) {
    void *room = calloc(count, size);
    if (!room) give_up("memory", strerror(ENOMEM));
    return room;
}

static void note_ending(struct run *run, size_t slot, long answer) {
    run->endings[run->told++] = ending_of(run->executor, slot, answer);
    give_back(&run->executor->slots, slot);
}

/* More of the stream is there, or its end. */
static void take_orders(struct run *run, int answer) {
    struct executor *executor = run->executor;
    size_t slot;
    run->is_reading = false;
    if (answer == -EINTR || answer == -EAGAIN) return;
    if (answer <= 0) {
        run->is_over = true;
        end_stream(executor);
        return;
    }
    executor->slots.part += (size_t)answer;
    for (; next_order(&executor->slots, &slot); run->ready_count++) run->ready[(run->first_ready + run->ready_count) % executor->slots.count] = slot;
}

/* Writes what was ordered, as far as the target has room. */
static void write_if_due(struct run *run) {
    struct executor *executor = run->executor;
    for (; run->ready_count && run->writing < executor->queue; run->ready_count--, run->writing++) {
        size_t slot = run->ready[run->first_ready];
        run->first_ready = (run->first_ready + 1) % executor->slots.count;
        put_write(run->ring, slot, executor->target->fd, block_of(&executor->slots, slot), executor->region.block_size, place_of_slot(executor, slot), executor->target->is_atomic);
    }
}

/* Tells what has ended. It takes a moment: what is to be written goes to the target first. */
static void tell_if_due(struct run *run) {
    if (!run->told) return;
    give_calls(run->ring);
    run->executor->tell(run->executor->whose, run->endings, run->told);
    run->told = 0;
}

static void take_write(struct run *run, size_t slot, int answer) {
    run->writing--;
    if (run->executor->flush && answer == (int)run->executor->region.block_size)
        run->unflushed[run->unflushed_count++] = slot;
    else
        note_ending(run, slot, answer);
}

static void take_flush(struct run *run, int answer) {
    for (size_t at = 0; at < run->flushing_count; at++) note_ending(run, run->flushing[at], answer < 0 ? answer : (long)run->executor->region.block_size);
    run->flushing_count = 0;
}

/* Begins a flush of what was written by now, where there is enough of it, or nothing else is
 * out. */
static void flush_if_due(struct run *run) {
    bool is_due = run->unflushed_count && (run->unflushed_count >= run->executor->flush || run->writing == 0);
    if (run->flushing_count || !is_due) return;
    memcpy(run->flushing, run->unflushed, run->unflushed_count * sizeof *run->flushing);
    run->flushing_count = run->unflushed_count;
    run->unflushed_count = 0;
    put_flush(run->ring, FLUSH, run->executor->target->fd);
}

static void read_if_due(struct run *run) {
    if (run->is_reading || run->is_over) return;
    int count = next_room(&run->executor->slots, run->pieces, 2 * (int)run->executor->slots.count);
    if (count == 0) return;
    put_read(run->ring, READ, run->executor->orders, run->pieces, count);
    run->is_reading = true;
}

void carry_out_by_ring(struct executor *executor, struct ring *ring) {
    size_t count = executor->slots.count;
    struct run run = {.executor = executor, .ring = ring};
    run.pieces = room_for(2 * count, sizeof *run.pieces), run.endings = room_for(count, sizeof *run.endings);
    run.ready = room_for(count, sizeof *run.ready);
    run.unflushed = room_for(count, sizeof *run.unflushed), run.flushing = room_for(count, sizeof *run.flushing);
    while (read_if_due(&run), flush_if_due(&run), run.is_reading || run.writing || run.flushing_count) {
        uint64_t what;
        int answer;
        await_ends(ring);
        while (next_end(ring, &what, &answer)) {
            if (what == READ) take_orders(&run, answer);
            else if (what == FLUSH) take_flush(&run, answer);
            else take_write(&run, (size_t)what, answer);
        }
        write_if_due(&run);
        tell_if_due(&run);
    }
    free(run.pieces), free(run.endings), free(run.ready), free(run.unflushed), free(run.flushing);
}
