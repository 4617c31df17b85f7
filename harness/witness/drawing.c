#include "drawing.h"

#include "say.h"
#include "seeded.h"

/* splitmix64: word n behind a seed. */
static uint64_t drawn(uint64_t seed, uint64_t n) {
    uint64_t x = seed + n * 0x9E3779B97F4A7C15u;
    x = (x ^ (x >> 30)) * 0xBF58476D1CE4E5B9u;
    x = (x ^ (x >> 27)) * 0x94D049BB133111EBu;
    return x ^ (x >> 31);
}

uint64_t moment_of(const struct options *options, const struct folder *folder, uint64_t cycle) {
    return options->least + drawn(folder->seed, cycle) % (options->most - options->least + 1);
}

uint64_t drawn_below(const struct folder *folder, uint64_t cycle, uint64_t number, uint64_t below) {
    return drawn(drawn(drawn(folder->seed, 0), 0) + cycle, number) % below;
}

bool draws_orders(const struct options *options, const struct job *job) {
    static char text[MAX_JOB_TEXT];
    if (options->same_order || !job->is_random) return false;
    /* (behind another seed than it has now the job has that one, or still its own) */
    const struct job other = seeded_job(options->job_file, job, job->seed - job->number + 1, text);
    if (job_in(options->job_file, text, other.text_length, job->number).seed != job->seed) return true;
    say("%s says randseed itself: all runs have that order", options->job_file);
    return false;
}

struct job job_of_cycle(const struct options *options, const struct folder *folder, const struct job *job, uint64_t cycle, char text[MAX_JOB_TEXT]) {
    /* (cycles are counted from 1 on: word 0 is no moment, and the seed of a stream of its own) */
    return folder->draws_orders ? seeded_job(options->job_file, job, drawn(drawn(folder->seed, 0), cycle), text) : *job;
}
