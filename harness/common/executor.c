#include "executor.h"

#include "say.h"

#include <errno.h>
#include <inttypes.h>
#include <stdio.h>
#include <string.h>

uint64_t place_of_slot(const struct executor *executor, size_t slot) {
    uint64_t block = order_of(&executor->slots, slot).block;
    if (block >= executor->region.blocks) give_up("an order", "it is of a block that the job hasn't");
    return place_of(&executor->region, block);
}

static const char *why_failed(const struct executor *executor, long answer) {
    bool takes_none = executor->target->is_atomic && (answer == -EOPNOTSUPP || answer == -EINVAL);
    if (takes_none) return "the system takes no such atomic write (RWF_ATOMIC), whatever it told of them";
    return answer < 0 ? strerror((int)-answer) : "not all of its bytes were written";
}

struct ending ending_of(const struct executor *executor, size_t slot, long answer) {
    struct order order = order_of(&executor->slots, slot);
    bool is_done = answer == (long)executor->region.block_size;
    if (!is_done) {
        char why[240];
        snprintf(why, sizeof why, "%s: write %" PRIu64 " to block %" PRIu64 " failed: %s", executor->target->name, order.write, order.block, why_failed(executor, answer));
        say("%s", why);
        if (executor->tell_why) executor->tell_why(executor->whose, why);
    }
    return (struct ending){order.write, order.block, is_done};
}

void end_stream(const struct executor *executor) {
    uint8_t last[8192];
    executor->tell_last(executor->whose, last, what_is_left(&executor->slots, last, sizeof last));
}

void carry_out(struct executor *executor) {
    struct ring ring;
    /* (one more than are out at once: what stands behind the last order needs a place, too) */
    make_slots(&executor->slots, executor->region.block_size, executor->depth + 1, executor->summed ? SUMMED_HEAD : PLAIN_HEAD);
    unsigned calls = (unsigned)executor->depth + 2; /* a read and a flush */
    if (executor->queue == 0 || executor->queue > executor->depth) executor->queue = executor->depth;
    if (executor->target->is_folder)
        carry_out_by_threads(executor);
    else if (!executor->target->is_direct)
        carry_out_by_turns(executor);
    else if (executor->by != BY_THREADS && open_ring(&ring, calls, executor->slots.blocks, executor->slots.count * executor->region.block_size)) {
        carry_out_by_ring(executor, &ring);
        close_ring(&ring);
    } else if (executor->by == BY_RING)
        give_up("--by ring", "the kernel gives no io_uring here");
    else
        carry_out_by_threads(executor);
    free_slots(&executor->slots);
}
