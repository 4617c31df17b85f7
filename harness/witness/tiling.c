#include "tiling.h"

#include "say.h"
#include "slots.h"
#include "state.h"

#include <endian.h>
#include <errno.h>
#include <stdlib.h>
#include <string.h>

enum { BEGIN = 4 };

struct tiling make_tiling(struct tiles *tiles, const struct job *job, uint64_t cycle, uint64_t most) {
    struct tiling tiling = {.tiles = tiles, .job = job, .cycle = cycle, .most = most, .out = calloc(most * job->depth, sizeof *tiling.out)};
    if (!tiling.out) give_up("memory", strerror(ENOMEM));
    return tiling;
}

void free_tiling(struct tiling *tiling) {
    free(tiling->out), free(tiling->last);
}

static size_t put_word(uint8_t *words, uint64_t kind, uint64_t number, uint64_t what) {
    const uint64_t word[] = {htobe64(kind), htobe64(number), htobe64(what)};
    memcpy(words, word, TILE_WORD);
    return TILE_WORD;
}

size_t begin_tiles(struct tiling *tiling, uint8_t words[MOST_OPEN * TILE_WORD]) {
    size_t length = 0;
    uint64_t tile;
    while (!tiling->is_taken && tiling->count < tiling->most && next_tile(tiling->tiles, &tile)) {
        const uint64_t run = draw_number();
        note_tile_begun(tiling->tiles, tile, run, tiling->cycle); /* (before `drive` hears of it) */
        tiling->open[tiling->count++] = (struct open_tile){.number = tiling->begun, .tile = tile};
        length += put_word(words + length, BEGIN, tiling->begun++, run);
    }
    return length;
}

static struct open_tile *open_of(struct tiling *tiling, uint64_t number) {
    for (size_t at = 0; at < tiling->count; at++)
        if (tiling->open[at].number == number) return &tiling->open[at];
    give_up("drive", "it speaks of a tile that isn't open");
}

/* Keeps the last order of a tile, in the place of that of another one, once each tile is begun. It is the last
 * write to its block. */
static void keep_last(struct tiling *tiling, uint64_t write, const uint8_t *order) {
    uint64_t tile;
    if (write + 1 < tiling->job->total || next_tile(tiling->tiles, &tile)) return;
    tiling->last_length = sizeof(struct order) + tiling->job->block_size;
    if (!tiling->last) tiling->last = malloc(tiling->last_length);
    if (!tiling->last) give_up("memory", strerror(ENOMEM));
    memcpy(tiling->last, order, tiling->last_length);
}

bool has_nothing_out(const struct tiling *tiling) {
    uint64_t tile;
    return !tiling->is_taken && !tiling->count && !tiling->is_busy && !next_tile(tiling->tiles, &tile);
}

uint8_t *order_once_more(struct tiling *tiling) {
    const uint64_t number = htobe64(tiling->busy = tiling->ordered++);
    tiling->is_busy = true;
    memcpy(tiling->last, &number, sizeof number);
    return tiling->last;
}

bool is_once_more(const struct tiling *tiling, uint64_t number) {
    return tiling->is_busy && tiling->busy == number;
}

uint8_t *order_of_tile(struct tiling *tiling, uint8_t *frame) {
    uint64_t numbers[3];
    memcpy(numbers, frame, sizeof numbers);
    const uint64_t of = be64toh(numbers[0]), write = be64toh(numbers[1]), block = be64toh(numbers[2]);
    const uint64_t tile = open_of(tiling, of)->tile;
    if (block >= tiling->job->blocks || tiling->out_count == tiling->most * tiling->job->depth) give_up("drive", "it orders what its job hasn't");
    tiling->out[tiling->out_count++] = (struct tile_write){tiling->ordered, of, write};
    const struct order order = {htobe64(tiling->ordered++), htobe64(tile * tiling->job->blocks + block)};
    memcpy(frame + sizeof numbers[0], &order, sizeof order);
    keep_last(tiling, write, frame + sizeof numbers[0]);
    return frame + sizeof numbers[0];
}

/* Which write of a tile one is that the agent tells of, and no more is out. */
static struct tile_write close_write(struct tiling *tiling, uint64_t number) {
    size_t at = 0;
    while (at < tiling->out_count && tiling->out[at].number != number) at++;
    if (at == tiling->out_count) give_up("the link", "it tells of a write that isn't out");
    const struct tile_write closed = tiling->out[at];
    tiling->out[at] = tiling->out[--tiling->out_count];
    return closed;
}

size_t spell_end_of_write(struct tiling *tiling, struct told told, uint8_t words[MOST_WORDS]) {
    if (is_once_more(tiling, told.write)) {
        tiling->is_busy = false;
        return 0;
    }
    const struct tile_write write = close_write(tiling, told.write);
    struct open_tile *open = open_of(tiling, write.of);
    if (open->is_taken) return 0;
    size_t length = put_word(words, told.kind, write.of, write.write);
    open->done += told.kind == DONE;
    if (open->done < tiling->job->total) return length;
    open->is_taken = true;
    return length + put_word(words + length, TAKE, write.of, 0);
}

size_t take_tiles(struct tiling *tiling, uint8_t words[MOST_OPEN * TILE_WORD]) {
    size_t length = 0;
    for (size_t at = 0; at < tiling->count; at++) {
        if (!tiling->open[at].is_taken) length += put_word(words + length, TAKE, tiling->open[at].number, 0);
        tiling->open[at].is_taken = true;
    }
    tiling->is_taken = true;
    return length;
}

void end_tile(struct tiling *tiling, const uint8_t state[TILE_STATE]) {
    uint64_t number;
    memcpy(&number, state + STATE_BYTES, sizeof number);
    struct open_tile *open = open_of(tiling, be64toh(number));
    const uint64_t tile = open->tile;
    if (!open->is_taken || run_of_state(state) != tiling->tiles->all[tile].run) give_up("drive", "it gives a state that wasn't asked for");
    note_tile_ended(tiling->tiles, tile, state);
    *open = tiling->open[--tiling->count];
}
