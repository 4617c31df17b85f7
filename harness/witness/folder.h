/* The folder of a series of cycles: its settings, which drive it is of, and of each cycle the state,
 * the report and a line. */
#ifndef FOLDER_H
#define FOLDER_H

#include "job.h"
#include "kinds.h"
#include "options.h"
#include "run.h"
#include "runs.h"

#include <limits.h>

/* What showed that the power was cut, weakest first. */
enum cut { NO_CUT, CUT_BY_WORD, CUT_BY_FALL, CUT_BY_START };

/* A cycle that is over. */
struct cycle {
    uint64_t number, cut_after;
    struct tally tally;
    enum cut cut;
    char way[MAX_WAY]; /* what its writes rested on */
    uint64_t checked, faults;
    bool by_ledger;
    uint64_t at_rest; /* of the faults, by a ledger: no write since the last check had come to these */
    char kinds[KIND_WORDS]; /* of the faults, and how many of each: `lost 4 torn 1` */
};

/* What all cycles of a series come to that are over. */
struct totals {
    uint64_t cycles, checked, faults, at_rest;
    uint64_t faulty, unchecked;        /* cycles that had faults, and that had nothing to check */
    uint64_t cuts, trusted;            /* cycles with a cut, and those of them by the word of --off alone */
    uint64_t last_cut;                 /* the last cycle with a cut */
    uint64_t judged;                   /* cuts behind which some block had to hold something */
    uint64_t flying_cuts, in_flight;   /* cuts with writes in flight, and these writes in all */
};

/* What a tour covers: so many tiles, of so many bytes that it was asked for. Both are 0 where it is none. */
struct cover {
    uint64_t tiles, bytes;
};

struct folder {
    const char *path;
    uint64_t seed;     /* by which the moments of the cuts are drawn, */
    bool draws_orders; /* and then the order of each run, too */
    struct cover tour; /* of a tour: what it covers */
    char drive[MAX_DRIVE]; /* the drive that its first cycle wrote to; nothing before that */
    struct totals totals;
};

/* Makes the folder of a series that draws the orders of its runs, or doesn't; or opens it again with
 * --resume, which wants the job file and the region of its beginning, and goes on by its seed, and so
 * with the orders. */
struct folder open_folder(const struct options *options, const struct job *job, const struct region *region, bool draws_orders, struct cover tour);

/* What the tour in a folder covers, which has to be there. */
struct cover cover_in_folder(const char *path);

/* Keeps which drive it is of. */
void keep_drive(struct folder *folder, const char drive[MAX_DRIVE]);

/* The name of a file of it. */
void name_file(const struct folder *folder, const char *file, char name[PATH_MAX]);

/* The name of a file of a cycle; and how all of these begin, where the ending is NULL. */
void name_of(const struct folder *folder, uint64_t cycle, const char *ending, char name[PATH_MAX]);

/* Takes room for what a cycle keeps, before its power is cut; and gives it back, for that. */
void take_room(const struct folder *folder);
void give_room(const struct folder *folder);

/* The runs of all cycles that are over. Who calls frees them. */
struct known_runs runs_of_cycles(const struct folder *folder);

/* How a line of a drive among several begins: `drive 2: `. It is empty where the number is 0. */
void spell_drive(uint64_t drive, char whose[32]);

/* What showed that the power was cut, by the starts of the machine before and behind that. Until the machine
 * is there again, its old start is known alone. */
enum cut shown_cut(const struct options *options, const struct tally *tally, const char *before, const char *behind);

/* What a line says of a cut. */
const char *word_of_cut(enum cut cut);

/* What is told of a cycle that is over: the line that is kept, and the one that is printed. */
enum { MAX_LINE = 1024 };
struct lines {
    char kept[MAX_LINE], printed[MAX_LINE];
};
void spell_cycle(const struct cycle *cycle, const struct options *options, struct lines *lines);

/* The number behind a name in a line that is kept, or 0. */
uint64_t number_in(const char *line, const char *name);

/* Keeps the line of a cycle that is over, counts it, and prints it. */
void keep_cycle(struct folder *folder, const struct lines *lines, const struct options *options);

#endif
