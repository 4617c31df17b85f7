/* The places that orders are read into: many at once, and each block where a device can take it
 * from. */
#ifndef SLOTS_H
#define SLOTS_H

#include <stdbool.h>
#include <stddef.h>
#include <stdint.h>
#include <sys/uio.h>

/* An order: a write, and the block that it goes to. As it comes its numbers have their high byte
 * first. */
struct order {
    uint64_t write, block;
};

/* What stands before an order's block as it comes: the order, and over a link the sum of both, which
 * an order of `drive` on this machine lacks. */
struct order_head {
    struct order order;
    uint32_t sum, spare;
};
enum { PLAIN_HEAD = sizeof(struct order), SUMMED_HEAD = sizeof(struct order_head) };

struct slots {
    uint64_t block_size;
    size_t count;         /* how many slots there are */
    uint8_t *blocks;      /* theirs, one behind the other */
    struct order_head *orders; /* theirs, as they came */
    size_t head;          /* how many bytes of one come: PLAIN_HEAD or SUMMED_HEAD */
    size_t *spares;       /* a ring of the slots that are free; the first is filled next */
    size_t first, free;   /* where the ring begins, and how many are in it */
    size_t part;          /* how many bytes have come that stand in free slots */
};

/* Makes so many slots, all of them free, for orders with such heads. */
void make_slots(struct slots *slots, uint64_t block_size, size_t count, size_t head);

void free_slots(struct slots *slots);

/* Says where the next bytes go, in at most so many pieces, and returns in how many. */
int next_room(const struct slots *slots, struct iovec *pieces, int most);

/* Takes the next order where all of it has come, and says in which slot it is. Where its sum is
 * another one, the harness gives up. */
bool next_order(struct slots *slots, size_t *slot);

/* The order of a slot, and its block. */
struct order order_of(const struct slots *slots, size_t slot);
uint8_t *block_of(const struct slots *slots, size_t slot);

/* Makes a slot free again. */
void give_back(struct slots *slots, size_t slot);

/* Copies what has come behind the last order, at most so many bytes of it, and returns how many
 * there are of it. More than an order has aren't kept. */
size_t what_is_left(const struct slots *slots, void *bytes, size_t most);

#endif
