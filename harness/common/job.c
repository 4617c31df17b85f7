#include "job.h"

#include "bytes.h"
#include "child.h"
#include "program.h"
#include "say.h"

#include <errno.h>
#include <inttypes.h>
#include <regex.h>
#include <stdio.h>
#include <stdlib.h>
#include <string.h>

/* A job file has at most 16,384 bytes; a larger one is for fiocut to refuse. What fiocut says of
 * one is shorter than the other bound. */
enum { MAX_TEXT = 65536, MAX_SAID = 1 << 20 };

static const char FIELDS[] = " (sequential|random|norandommap) blocks=([0-9]+) total=([0-9]+) bs=([0-9]+) seed=([0-9]+) depth=([0-9]+)"
                             " window=[0-9]+ verify=[^ ]+ save=[01] load=[01] fatal=[01] file=";

/* What `fiocut jobs` says of a text; a refusal is given up on. */
static char *said_of(const char *file, const char *text, size_t length) {
    static char said[MAX_SAID];
    char name[] = "fiocut", word[] = "jobs";
    const char *program = program_of("FIOCUT", name);
    struct child fiocut = start_child(program, (char *[]){name, word, NULL}, CHILD_READS | CHILD_WRITES);
    write_all(fiocut.to, text, length); /* (it may end before it has read all, and says why) */
    end_input(&fiocut);
    ssize_t count = read_all(fiocut.from, said, MAX_SAID - 1);
    if (count < 0) give_up_by_errno(program);
    said[count] = 0;
    if (wait_for(&fiocut) != 0) {
        said[strcspn(said, "\n")] = 0;
        give_up(file, *said ? said : "fiocut ended without an answer");
    }
    return said;
}

/* The row of a job, or NULL. */
static char *row_of(char *said, uint64_t number) {
    char begins[32];
    size_t length = (size_t)snprintf(begins, sizeof begins, "job %" PRIu64 " ", number);
    for (char *row = strtok(said, "\n"); row; row = strtok(NULL, "\n"))
        if (strncmp(row, begins, length) == 0) return row;
    return NULL;
}

static uint64_t field(const char *row, const regmatch_t *at) {
    return strtoull(row + at->rm_so, NULL, 10);
}

/* Reads the fields of a row: the first that are all there. The section's name stands before them,
 * and has 64 characters at most: too few for such fields. */
static void read_fields(const char *row, struct job *job) {
    regex_t fields;
    regmatch_t at[7];
    if (regcomp(&fields, FIELDS, REG_EXTENDED)) give_up("memory", strerror(ENOMEM));
    int failed = regexec(&fields, row, 7, at, 0);
    regfree(&fields);
    if (failed) give_up(row, "this isn't how fiocut tells a job");
    job->blocks = field(row, &at[2]), job->total = field(row, &at[3]);
    job->block_size = field(row, &at[4]), job->seed = field(row, &at[5]), job->depth = field(row, &at[6]);
    job->is_random = row[at[1].rm_so] != 's'; /* (sequential) */
    job->writes_all = row[at[1].rm_so] != 'n' && job->total >= job->blocks; /* (norandommap) */
}

struct job job_in(const char *file, const char *text, size_t length, uint64_t number) {
    struct job job = {.number = number, .text = text, .text_length = length};
    char *said = said_of(file, text, length), *row = row_of(said, number);
    if (!row) give_up(file, "it has no such job");
    read_fields(row, &job);
    return job;
}

struct job read_job(const char *file, uint64_t number) {
    static char text[MAX_TEXT];
    ssize_t length = read_file(file, text, MAX_TEXT);
    if (length < 0) give_up_by_errno(file);
    return job_in(file, text, (size_t)length, number);
}
