/* What the command line of drive-target asks for. */
#ifndef OPTIONS_H
#define OPTIONS_H

#include "target.h"
#include "way.h"

#include <stdbool.h>
#include <stdint.h>

struct options {
    enum command { WRITE = 1, CHECK = 2, MAP = 4 } command;
    const char *job_file, *state;
    struct opening opening;
    const char *trigger, *keep, *cut, *cpu; /* NULL where the option isn't given */
    uint64_t job, offset, stride;
    uint64_t after; /* 0: at no number of writes */
    uint64_t run;   /* 0: the run of the state */
    uint64_t queue; /* 0: as many writes at once as the job's depth */
    uint64_t unit;  /* 0: a block */
    uint64_t dump;  /* the bytes of so many faulty blocks are kept */
    struct way way; /* of a write: what it rests on */
    bool other_drive; /* a check takes another drive than the run's */
    const char *ledger; /* the file that keeps one, or NULL: a check goes by it, too */
    bool lost;          /* the run's state was lost */
};

/* Reads the command line. Where it can't be read, the harness says how it goes, or what is wrong,
 * and ends. */
struct options read_options(int count, char **words);

/* Whether the state's place is `-`, which stands for none: a full pass, or a run whose state was
 * lost. */
bool has_no_state(const struct options *options);

#endif
