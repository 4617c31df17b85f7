#include "seeded.h"

#include "say.h"

#include <inttypes.h>
#include <stdio.h>
#include <stdlib.h>
#include <string.h>

/* What stands in front of the job file. The seed follows, and the end of its line. */
static const char FRONT[] = "# drawn by drive-witness cycle, for this run\n[global]\nrandseed=";

enum { MOST_DIGITS = 20 };

/* Spells the text, and returns its length, or 0 where it is too long. */
static size_t spell_seeded(const struct job *job, uint64_t seed, char text[MAX_JOB_TEXT]) {
    char front[sizeof FRONT + MOST_DIGITS + 1];
    const size_t length = (size_t)snprintf(front, sizeof front, "%s%" PRIu64 "\n", FRONT, seed);
    if (length + job->text_length > MAX_JOB_TEXT) return 0;
    memcpy(text, front, length);
    memcpy(text + length, job->text, job->text_length);
    return length + job->text_length;
}

struct job seeded_job(const char *file, const struct job *job, uint64_t seed, char text[MAX_JOB_TEXT]) {
    struct job seeded = *job;
    seeded.text = text, seeded.text_length = spell_seeded(job, seed, text);
    if (!seeded.text_length) give_up(file, "with the lines that draw an order for each run it is too long: --same-order goes without them");
    return seeded;
}

/* Whether the text of a state's file is a job's, behind the lines of some seed. */
static bool has_seeded(const struct kept *kept, const struct job *job) {
    char text[MAX_JOB_TEXT], digits[MOST_DIGITS + 1] = "";
    const size_t front = strlen(FRONT);
    if (kept->text_length < front + MOST_DIGITS || memcmp(kept->text, FRONT, front)) return false;
    memcpy(digits, kept->text + front, MOST_DIGITS);
    const size_t length = spell_seeded(job, strtoull(digits, NULL, 10), text);
    return length == kept->text_length && !memcmp(text, kept->text, length);
}

struct job job_to_check(const char *path, const struct kept *kept, const struct job *job) {
    struct job its = *job;
    if (kept->is_bare) return its;
    const bool is_same = kept->text_length == job->text_length && !memcmp(kept->text, job->text, job->text_length);
    if (kept->job != job->number || !(is_same || has_seeded(kept, job))) give_up(path, "the run was written by another job file, or another job of it");
    its.text = kept->text, its.text_length = kept->text_length;
    return its;
}
