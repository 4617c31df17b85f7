/* What `drive map` says of a target's blocks, or `drive ledger`: those that are at fault, and what each
 * holds. */
#ifndef MAP_H
#define MAP_H

#include "asked.h"
#include "child.h"
#include "job.h"
#include "ledger.h"
#include "region.h"

#include <pthread.h>
#include <stdbool.h>
#include <stddef.h>
#include <stdint.h>

struct map {
    struct child drive;
    struct region region;
    pthread_t reader; /* takes what `drive` says while it is still given blocks */
    char *text;       /* all of that, with a 0 behind it; once it is awaited without the ledger */
    size_t length;
    struct basis basis;
    const uint8_t *ledger; /* the one behind the check, where `drive` gave one, or NULL */
    size_t ledger_length;
    struct asked asked;   /* the blocks that it is given, from the region's first on: of the others it is told that they aren't read */
    uint64_t seen, total; /* blocks that it was told of, and those of the region */
    int64_t next_line;    /* when it is said next how far it is */
};

/* Starts `drive`, and gives it the job file and what it checks by, which stays there until the map is
 * awaited. All blocks are asked for, until `asked` is set, whose bits stay there, too. */
void open_map(struct map *map, const struct job *job, const struct region *region, const struct basis *basis);

/* Gives it the next blocks that are asked for, whole; tells it that the next one can't be read; or that none can
 * from here on. False once it reads no more. */
bool map_blocks(struct map *map, const void *bytes, size_t length);
bool map_missed(struct map *map);
bool map_all_missed(struct map *map);

/* Ends its input, behind those blocks that aren't asked for, and waits for all that it says. Where a signal
 * ended it, the harness gives up. */
void await_map(struct map *map);

/* Prints it: the whole of it, and on a terminal a picture of the region before it; or else a long line
 * of unchecked blocks as how many they are. */
void print_map(const struct map *map, bool is_whole);

/* The last line of what it said: the report, or why there is none. */
const char *report_of_map(const struct map *map);

/* Keeps the ledger that `drive` gave behind the check of this drive; where it gave none, says so, and
 * the one before it stands. What the check found has to be told and kept before: a loss is told once. */
void keep_ledger_of(const struct map *map, const char drive[MAX_DRIVE]);

void free_map(struct map *map);

#endif
