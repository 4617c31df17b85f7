/* A tour of a drive: its tiles are written, many at once, and its power is cut, again and again; what was
 * written is checked behind the cut, and at the end each tile. */
#ifndef TOUR_H
#define TOUR_H

#include "folder.h"
#include "power.h"
#include "run.h"
#include "tiles.h"

#include <stdio.h>

/* A cycle of a tour: what is written between two cuts, and checked behind the second. */
struct tour_cycle {
    uint64_t number, cut_after;
    bool is_last;    /* it is the last check, behind all cycles */
    bool is_resumed; /* its check was stopped, and is made again */
    bool is_seen;    /* the machine under test has answered since the cut */
    struct tally tally;
    enum cut cut;
    char boot[MAX_BOOT], way[MAX_WAY]; /* of the machine under test, before the cut; and what its writes rested on */
    uint64_t whole, cut_short;         /* so many tiles were ended by it: their runs were whole, or weren't */
    uint64_t checked;                  /* so many were checked behind it, */
    struct findings found;             /* and this was found */
};

struct tour {
    const struct options *options;
    const struct job *job; /* of each tile, as the job file says it */
    struct region region;  /* all tiles, one behind the other */
    struct folder folder;
    struct tiles tiles;
    struct power power;
    struct tour_cycle cycle;
    struct sitting sitting; /* over which tiles are checked */
    FILE *report;      /* a line for each faulty block of this check */
    char faulty[128];  /* the tiles with faults of this check */
    uint64_t next_line;         /* when it is said next how far a check is */
    uint64_t began, begun_with; /* when this witness began, and how many tiles were done by then */
};

/* How many tiles need no run any more. */
uint64_t tiles_done(const struct tiles *tiles);

/* The name of the file that keeps the ledger of a tile, where it has one. */
void name_of_tile(const struct tour *tour, uint64_t at, char name[PATH_MAX]);

/* Checks a tile, counts what is found for the cycle, and tells of each fault in the report. Returns false where
 * there is no report of the whole tile. The first check of a cycle shows whether there was a cut. */
bool check_tile(struct tour *tour, uint64_t at);

/* Begins the report of a check, behind what one that was stopped has told, and ends it. */
void open_report(struct tour *tour, const char *ending);
void close_report(struct tour *tour);

/* Keeps what was seen of the cut of a cycle, beside its tiles' states: for a check that comes later. Reads
 * it, and returns whether it is that of this cycle, and there was a cut. */
void keep_seen(const struct tour *tour);
bool read_seen(struct tour *tour);

/* The lines of a cycle that is over. */
void spell_tour_cycle(const struct tour *tour, struct lines *lines);

/* Prints what the tour comes to, and returns its status, or the one that is given where that isn't 0. */
int tell_tour(const struct tour *tour, bool is_over, int status);

#endif
