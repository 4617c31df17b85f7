#include "slots.h"

#include "say.h"
#include "sum.h"

#include <endian.h>
#include <errno.h>
#include <stdlib.h>
#include <string.h>

/* What O_DIRECT wants of a block's place in memory is a multiple of a page at most. */
enum { PAGE = 4096 };

static size_t frame_of(const struct slots *slots) {
    return slots->head + slots->block_size;
}

static size_t spare(const struct slots *slots, size_t index) {
    return slots->spares[(slots->first + index) % slots->count];
}

void make_slots(struct slots *slots, uint64_t block_size, size_t count, size_t head) {
    void *blocks;
    if (posix_memalign(&blocks, PAGE, count * block_size)) give_up("memory", strerror(ENOMEM));
    *slots = (struct slots){.block_size = block_size, .count = count, .blocks = blocks, .free = count, .head = head};
    slots->orders = calloc(count, sizeof *slots->orders);
    slots->spares = calloc(count, sizeof *slots->spares);
    if (!slots->orders || !slots->spares) give_up("memory", strerror(ENOMEM));
    for (size_t slot = 0; slot < count; slot++) slots->spares[slot] = slot;
}

void free_slots(struct slots *slots) {
    free(slots->blocks), free(slots->orders), free(slots->spares);
}

/* A piece of a slot from this byte of its order on, where there is any. */
static int add_piece(struct iovec *piece, void *bytes, size_t length, size_t from) {
    if (from >= length) return 0;
    *piece = (struct iovec){(uint8_t *)bytes + from, length - from};
    return 1;
}

int next_room(const struct slots *slots, struct iovec *pieces, int most) {
    int count = 0;
    size_t frame = frame_of(slots), head = slots->head;
    for (size_t index = slots->part / frame; index < slots->free && count + 2 <= most; index++) {
        size_t slot = spare(slots, index), from = index == slots->part / frame ? slots->part % frame : 0;
        count += add_piece(pieces + count, &slots->orders[slot], head, from);
        count += add_piece(pieces + count, block_of(slots, slot), slots->block_size, from > head ? from - head : 0);
    }
    return count;
}

/* The first byte of an order is 0, that of what stands behind the last one is not. */
static bool begins_order(const struct slots *slots) {
    return *(const uint8_t *)&slots->orders[spare(slots, 0)] == 0;
}

static bool is_as_sent(const struct slots *slots, size_t slot) {
    const struct order_head *head = &slots->orders[slot];
    return be32toh(head->sum) == sum_over(sum_over(0, &head->order, sizeof head->order), block_of(slots, slot), slots->block_size);
}

bool next_order(struct slots *slots, size_t *slot) {
    if (slots->part < frame_of(slots) || !begins_order(slots)) return false;
    *slot = spare(slots, 0);
    if (slots->head == SUMMED_HEAD && !is_as_sent(slots, *slot)) give_up("the link", "an order came otherwise than it was sent");
    slots->first = (slots->first + 1) % slots->count;
    slots->free--;
    slots->part -= frame_of(slots);
    return true;
}

struct order order_of(const struct slots *slots, size_t slot) {
    return (struct order){be64toh(slots->orders[slot].order.write), be64toh(slots->orders[slot].order.block)};
}

uint8_t *block_of(const struct slots *slots, size_t slot) {
    return slots->blocks + slot * slots->block_size;
}

void give_back(struct slots *slots, size_t slot) {
    slots->spares[(slots->first + slots->free) % slots->count] = slot;
    slots->free++;
}

size_t what_is_left(const struct slots *slots, void *bytes, size_t most) {
    size_t have = slots->part < frame_of(slots) ? slots->part : frame_of(slots), head = slots->head;
    if (have > most) have = most;
    if (have == 0) return 0;
    memcpy(bytes, &slots->orders[spare(slots, 0)], have < head ? have : head);
    if (have > head) memcpy((uint8_t *)bytes + head, block_of(slots, spare(slots, 0)), have - head);
    return have;
}
