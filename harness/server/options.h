/* What the command line says. */
#ifndef OPTIONS_H
#define OPTIONS_H

#include "target.h"

/* The most jobs that a server has, and so the most targets; and the most blocks that a job has. */
enum { MOST_JOBS = 16, MOST_BLOCKS = 65536 };

/* A word for a target: a path, where the first block begins, and how far blocks stand apart. */
struct place {
    char *path;
    uint64_t offset, stride;
};

struct options {
    bool links; /* ties standard input and output to a server */
    uint64_t me;
    struct place places[MOST_JOBS]; /* those of the jobs, by their number */
    size_t place_count;
    struct opening opening; /* of each target, but for its name */
    const char *note, *socket, *cut;
    uint64_t flush;
    uint64_t orphan; /* seconds; 0: a run goes on without its client */
};

/* Reads it; where it can't be read, or asks for help, the program ends. */
struct options read_options(int count, char **words);

#endif
