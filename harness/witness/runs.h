/* Runs that are known by a number: the cycle or the tile that each is of. So a line that tells of a run says
 * whose that is. */
#ifndef RUNS_H
#define RUNS_H

#include <stdbool.h>
#include <stddef.h>
#include <stdint.h>
#include <stdio.h>

struct known_run {
    uint64_t run, number;
};

struct known_runs {
    const char *word; /* what the numbers are of: `cycle`, or `tile` */
    struct known_run *all;
    size_t count;
};

/* Adds one; once all are there, sorts them: then they can be found. */
void add_run(struct known_runs *runs, uint64_t run, uint64_t number);
void sort_runs(struct known_runs *runs);
void free_runs(struct known_runs *runs);

/* Writes a line of what `drive` said of a block, and behind each run of another number than this one which it is, as
 * `of run 4711 (tile 3)`. Returns whether there is such a one. */
bool write_with_runs(FILE *to, const char *line, size_t length, const struct known_runs *runs, uint64_t own);

#endif
