/* The tiles that are open while a cycle of a tour writes: each is a run of its own, `drive tour` orders the
 * writes of all, and to the agent they are writes of one region. */
#ifndef TILING_H
#define TILING_H

#include "job.h"
#include "notice.h"
#include "tiles.h"

#include <stdbool.h>
#include <stddef.h>
#include <stdint.h>

/* So many are open at once, at most; what `drive tour` hears is a word of three numbers, and behind a
 * state stands the number of its tile. */
enum { MOST_OPEN = 64, TILE_WORD = 24, TILE_STATE = STATE_BYTES + 8 };

/* What becomes of one write is at most so long in words: its end, and the take of its tile. */
enum { MOST_WORDS = 2 * TILE_WORD };

struct open_tile {
    uint64_t number; /* as `drive tour` counts them, from 0 in the order in which they are begun */
    uint64_t tile, done;
    bool is_taken; /* its state was asked for, and hasn't come */
};

/* A write that is out: how the agent counts it, and which it is of which tile. */
struct tile_write {
    uint64_t number, of, write;
};

struct tiling {
    struct tiles *tiles;
    const struct job *job;
    uint64_t cycle, most;
    uint64_t begun, ordered;
    struct open_tile open[MOST_OPEN];
    size_t count;
    struct tile_write *out;
    size_t out_count;
    bool is_taken;       /* the state of each was asked for, and no more are begun */
    uint8_t *last;       /* the last order, once no more tiles are there to be begun; NULL before */
    size_t last_length;
    bool is_busy;        /* it is carried out once more, as write `busy` of the agent's */
    uint64_t busy;
};

/* The tiles of a cycle before the first is begun: so many at once. */
struct tiling make_tiling(struct tiles *tiles, const struct job *job, uint64_t cycle, uint64_t most);
void free_tiling(struct tiling *tiling);

/* Begins as many as can be, and spells the words that tell `drive` so. Returns how long these are. */
size_t begin_tiles(struct tiling *tiling, uint8_t words[MOST_OPEN * TILE_WORD]);

/* Takes an order of `drive tour`, and makes it one of the agent's region: returns that, which begins
 * within these bytes. */
uint8_t *order_of_tile(struct tiling *tiling, uint8_t *frame);

/* Whether nothing is out, and nothing is left to be written: the last order, if there was one, may then be
 * carried out once more, with the same bytes, so that a drive alone which loses its power is seen to. */
bool has_nothing_out(const struct tiling *tiling);

/* That order, as the agent has it, under a number of its own. */
uint8_t *order_once_more(struct tiling *tiling);

/* Whether a write is that one. */
bool is_once_more(const struct tiling *tiling, uint64_t number);

/* Spells what `drive` is told where a write has ended; where its tile's run is whole then, the state is asked
 * for, too. Returns how long that is. */
size_t spell_end_of_write(struct tiling *tiling, struct told told, uint8_t words[MOST_WORDS]);

/* Asks for the states of all that are open. Returns how long that is. */
size_t take_tiles(struct tiling *tiling, uint8_t words[MOST_OPEN * TILE_WORD]);

/* Takes a state that has come. */
void end_tile(struct tiling *tiling, const uint8_t state[TILE_STATE]);

#endif
