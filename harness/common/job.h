/* A job of a job file, as `fiocut jobs` tells it. */
#ifndef JOB_H
#define JOB_H

#include <stdbool.h>
#include <stddef.h>
#include <stdint.h>

struct job {
    uint64_t number, blocks, total, block_size, depth;
    bool is_random;  /* its order is drawn, from this seed on */
    bool writes_all; /* once it is whole, each block was written */
    uint64_t seed;
    uint64_t unit; /* what a map of it takes the target to write whole; 0: a block */
    uint64_t server; /* that of a fleet which wrote it; 0 where none did, too */
    const char *text; /* the job file */
    size_t text_length;
};

/* Reads the job file, once, and asks fiocut what this job of it is. Where it is refused or hasn't
 * the job, the harness gives up. */
struct job read_job(const char *file, uint64_t number);

/* The same of a text that was made of a job file. */
struct job job_in(const char *file, const char *text, size_t length, uint64_t number);

#endif
