#include "outbox.h"

#include "say.h"
#include "slots.h"
#include "sum.h"
#include "tiling.h"

#include <endian.h>
#include <errno.h>
#include <stdlib.h>
#include <string.h>
#include <unistd.h>

enum { MAX_LAST = 8192 };

static size_t frame_of(const struct outbox *outbox) {
    return PLAIN_HEAD + outbox->block_size;
}

/* What `drive` says of an order: with tiles the number of its tile stands in front. */
static size_t said_frame_of(const struct outbox *outbox) {
    return frame_of(outbox) + (outbox->tiling ? 8 : 0);
}

static size_t summed_frame_of(const struct outbox *outbox) {
    return SUMMED_HEAD + outbox->block_size;
}

void make_outbox(struct outbox *outbox, uint64_t block_size, uint64_t depth, bool sends, struct tiling *tiling) {
    *outbox = (struct outbox){.block_size = block_size, .depth = depth, .sends = sends, .tiling = tiling};
    /* (no more orders than `depth` are open) */
    outbox->room = (depth + 1) * said_frame_of(outbox) + MAX_LAST;
    outbox->out_room = sends ? (depth + 1) * summed_frame_of(outbox) : 1;
    outbox->bytes = malloc(outbox->room), outbox->out = malloc(outbox->out_room);
    outbox->open = calloc(depth, sizeof *outbox->open);
    if (!outbox->bytes || !outbox->out || !outbox->open) give_up("memory", strerror(ENOMEM));
}

void free_outbox(struct outbox *outbox) {
    free(outbox->bytes), free(outbox->out), free(outbox->open);
}

/* Puts an order that is whole behind those that are to be sent, with its sum. */
static void put_out(struct outbox *outbox, const uint8_t *frame) {
    struct order_head head = {.sum = htobe32(sum_over(0, frame, frame_of(outbox)))};
    if (outbox->out_room - outbox->out_end < summed_frame_of(outbox)) {
        memmove(outbox->out, outbox->out + outbox->sent, outbox->out_end - outbox->sent);
        outbox->out_end -= outbox->sent, outbox->sent = 0;
    }
    memcpy(&head.order, frame, PLAIN_HEAD);
    memcpy(outbox->out + outbox->out_end, &head, SUMMED_HEAD);
    memcpy(outbox->out + outbox->out_end + SUMMED_HEAD, frame + PLAIN_HEAD, outbox->block_size);
    outbox->out_end += summed_frame_of(outbox);
}

/* Takes the state of a tile, where it comes next and is whole. */
static bool see_state(struct outbox *outbox) {
    const uint8_t *next = outbox->bytes + outbox->seen;
    if (!outbox->tiling || outbox->end - outbox->seen < TILE_STATE || *next != 'F') return false;
    end_tile(outbox->tiling, next);
    outbox->seen += TILE_STATE;
    return true;
}

void order_again(struct outbox *outbox, const uint8_t *order) {
    uint64_t words[2];
    memcpy(words, order, sizeof words);
    outbox->open[outbox->open_count++] = (struct open_order){be64toh(words[0]), be64toh(words[1])};
    if (outbox->sends) put_out(outbox, order);
}

/* Takes an order, likewise. What doesn't begin with 0 is what `drive` says last. */
static bool see_order(struct outbox *outbox) {
    uint8_t *next = outbox->bytes + outbox->seen;
    if (outbox->end - outbox->seen < said_frame_of(outbox) || *next != 0) return false;
    if (outbox->open_count == outbox->depth) give_up("drive", "it has more writes out than the job's depth");
    if (outbox->tiling) next = order_of_tile(outbox->tiling, next);
    order_again(outbox, next);
    outbox->seen += said_frame_of(outbox);
    outbox->ordered++;
    return true;
}

bool read_orders(struct outbox *outbox, int from) {
    if (outbox->seen && outbox->room - outbox->end < said_frame_of(outbox) + MAX_LAST) {
        memmove(outbox->bytes, outbox->bytes + outbox->seen, outbox->end - outbox->seen);
        outbox->end -= outbox->seen, outbox->seen = 0;
    }
    if (outbox->end == outbox->room) give_up("drive", "it says more than its job has");
    ssize_t count = read(from, outbox->bytes + outbox->end, outbox->room - outbox->end);
    if (count < 0 && errno == EINTR) return true;
    if (count <= 0) return false;
    outbox->end += (size_t)count;
    while (see_state(outbox) || see_order(outbox)) {}
    if (outbox->seen == outbox->end) outbox->seen = outbox->end = 0;
    return true;
}

bool has_orders(const struct outbox *outbox) {
    return outbox->sent < outbox->out_end;
}

bool send_orders(struct outbox *outbox, int to) {
    ssize_t count = write(to, outbox->out + outbox->sent, outbox->out_end - outbox->sent);
    if (count < 0) return errno == EAGAIN || errno == EINTR;
    outbox->sent += (size_t)count;
    if (outbox->sent == outbox->out_end) outbox->sent = outbox->out_end = 0;
    return true;
}

bool close_order(struct outbox *outbox, uint64_t write, uint64_t *block) {
    for (size_t at = 0; at < outbox->open_count; at++) {
        if (outbox->open[at].write != write) continue;
        *block = outbox->open[at].block;
        outbox->open[at] = outbox->open[--outbox->open_count];
        return true;
    }
    return false;
}

/* Why `drive` gave no state, by how it ended. */
static _Noreturn void give_up_by_last(const struct outbox *outbox, int status) {
    char line[MAX_LAST + 1] = "";
    size_t length = outbox->end - outbox->seen;
    if (status < 0) give_up("drive", "it was killed, and there is no state");
    if (length > MAX_LAST) length = MAX_LAST;
    memcpy(line, outbox->bytes + outbox->seen, length);
    line[strcspn(line, "\n")] = 0;
    give_up("drive", status && *line ? line : "it ended without a state");
}

size_t take_state(struct outbox *outbox, int status, uint8_t state[MAX_STATE]) {
    const size_t length = outbox->end - outbox->seen;
    const bool is_state = status == 0 && length >= 4 && length <= MAX_STATE && !memcmp(outbox->bytes + outbox->seen, "FCV", 3);
    if (!is_state) give_up_by_last(outbox, status);
    memcpy(state, outbox->bytes + outbox->seen, length);
    return length;
}

void take_end(struct outbox *outbox, int status) {
    if (status || outbox->end != outbox->seen || outbox->tiling->count) give_up_by_last(outbox, status);
}
