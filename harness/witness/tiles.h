/* The tiles of a tour: the region of the job, again and again, one behind the other. What is known of
 * each is kept in one file, TILES of its folder: a record for each time that a run of a tile is begun,
 * has ended, or was checked, with a sum over it and all records before. */
#ifndef TILES_H
#define TILES_H

#include "flight.h"
#include "runs.h"

#include <limits.h>
#include <stdbool.h>
#include <stddef.h>
#include <stdint.h>

enum phase { TILE_NEW, TILE_BEGUN, TILE_ENDED };

/* What a check has found of blocks that had to hold something: each fault is in one of four classes. */
struct findings {
    uint64_t asked; /* how many had to */
    uint64_t in_flight, at_rest; /* what was written since the check before is gone, or what was sound then */
    uint64_t misdirected; /* another block's write is there, or another tile's */
    uint64_t unread;
    bool is_behind_cut; /* since the run of the tile was begun a cut was shown */
};

struct tile {
    enum phase phase;         /* of its last run */
    bool is_whole;            /* all writes of that run are done, */
    uint32_t cuts;            /* or so many runs in a row were ended before that */
    uint64_t run, cycle;      /* which it is, and in which cycle it wrote */
    uint64_t checked_in;      /* 0, or behind which cycle it was checked last, since that run had ended */
    uint64_t asked;           /* how many blocks had to hold something by a check since then, at most, */
    bool is_behind_cut;       /* and whether a cut was shown between its run's begin and a check */
    bool has_faults;          /* some check has found some */
    uint8_t state[STATE_BYTES];
};

struct tiles {
    char path[PATH_MAX];
    int fd;
    uint32_t sum;    /* over all records by now */
    uint64_t total;  /* how many writes a run of one has */
    uint64_t most;   /* so many cuts end the runs of one, at most */
    uint64_t next;   /* from this one on no run was ever of any */
    uint64_t *again; /* those below it that are to be written again: their run wasn't whole */
    size_t again_count;
    struct findings found; /* of all checks; what was asked is left out */
    struct findings found_last; /* of those behind the last cycle that any was behind, which is this one */
    uint64_t last_cycle;
    struct tile *all;
    uint64_t count;
};

/* Makes the file of so many tiles that are all new; or with `is_there` reads it, as far as its last record
 * that is whole. Where its bytes aren't those that were kept, the witness gives up. */
struct tiles open_tiles(const char *path, uint64_t count, uint64_t total, uint64_t most, bool is_there);

/* Notes that a run of a tile is begun, or that it left no state: then nothing is known of the tile any
 * more. */
void note_tile_begun(struct tiles *tiles, uint64_t at, uint64_t run, uint64_t cycle);
void note_tile_lost(struct tiles *tiles, uint64_t at);

/* Notes the state of its run. */
void note_tile_ended(struct tiles *tiles, uint64_t at, const uint8_t state[STATE_BYTES]);

/* Notes what a check behind this cycle has found. */
void note_tile_checked(struct tiles *tiles, uint64_t at, uint64_t cycle, const struct findings *found);

/* How many faults these are. */
uint64_t faults_in(const struct findings *found);

/* Has the disk keep all of that. */
void sync_tiles(const struct tiles *tiles);

/* The next tile that is to be written and isn't under way: first one whose run wasn't whole, unless too many
 * of its runs were cut. False where there is none. */
bool next_tile(const struct tiles *tiles, uint64_t *at);

/* The runs of all tiles. Who calls frees them. */
struct known_runs runs_of_tiles(const struct tiles *tiles);

/* How many were written and no check of them came behind a cut since. */
uint64_t tiles_behind_no_cut(const struct tiles *tiles);

/* Whether there is a state by which a tile can be checked. */
bool has_state(const struct tile *tile);

#endif
