/* The orders of `drive` on their way to an agent, and which of them are open: given, and their end
 * not told. */
#ifndef OUTBOX_H
#define OUTBOX_H

#include "state.h"

#include <stdbool.h>
#include <stddef.h>
#include <stdint.h>

struct tiling;

struct outbox {
    uint64_t block_size, depth, ordered;
    struct tiling *tiling; /* the orders are of these tiles, and states stand between them; else NULL */
    bool sends;
    uint8_t *bytes; /* what `drive` has said: up to `end`, of which what is before `seen` is done with */
    size_t room, seen, end;
    uint8_t *out; /* orders with their sums: up to `sent` the link has them, up to `out_end` they stand there */
    size_t out_room, sent, out_end;
    struct open_order { uint64_t write, block; } *open;
    size_t open_count;
};

/* Of one that doesn't send, who carries the orders out has them already. */
void make_outbox(struct outbox *outbox, uint64_t block_size, uint64_t depth, bool sends, struct tiling *tiling);
void free_outbox(struct outbox *outbox);

/* Reads what `drive` says. False once it says no more. */
bool read_orders(struct outbox *outbox, int from);

/* Puts an order behind those that are to be sent, which `drive` doesn't give anew: it isn't counted. */
void order_again(struct outbox *outbox, const uint8_t *order);

/* Whether the link hasn't all of them yet. */
bool has_orders(const struct outbox *outbox);

/* Gives the link as many as it takes now. False where it takes no more at all. */
bool send_orders(struct outbox *outbox, int to);

/* Notes that an order's end was told. False where there is no such open order. */
bool close_order(struct outbox *outbox, uint64_t write, uint64_t *block);

/* Copies the state, which is what `drive` said last, and returns its length. Where there is none,
 * the witness gives up and says why: `status` is how it ended. */
size_t take_state(struct outbox *outbox, int status, uint8_t state[MAX_STATE]);

/* Gives up where `drive` has said anything behind the states of all tiles. */
void take_end(struct outbox *outbox, int status);

#endif
