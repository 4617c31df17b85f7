#include "state.h"

#include "bytes.h"
#include "keeping.h"
#include "say.h"
#include "sealed.h"

#include <endian.h>
#include <errno.h>
#include <inttypes.h>
#include <limits.h>
#include <stdio.h>
#include <string.h>
#include <sys/random.h>
#include <sys/stat.h>
#include <time.h>
#include <unistd.h>

/* Where a state's run stands: behind four letters. */
enum { RUN_AT = 4, SHORTEST = RUN_AT + 8 };

/* How the file begins; and how a bare state does. */
static const char WHAT[] = "fiocut state 1", BARE[] = "FCV";

/* What stands behind that and its sum: lines, and behind the last one the job file and the state. */
#define FORM "run %" PRIu64 "\njob %" PRIu64 "\n" REGION_FORM "boot %s\nway %s\nkept %s\ntext %zu\nstate %zu\n\n"
#define SCANNED "run %" SCNu64 "\njob %" SCNu64 "\n" REGION_SCANNED "boot%*1[ ]%39[^\n]\nway%*1[ ]%63[^\n]\nkept %31[^\n]\ntext %zu\nstate %zu"

uint64_t draw_number(void) {
    uint64_t number = 0;
    while (number == 0)
        if (getrandom(&number, sizeof number, 0) != sizeof number) give_up_by_errno("a random number");
    return number;
}

void refuse_place(const char *place, const char *job_file, const char *target) {
    uint8_t front[sizeof WHAT + 8] = {0};
    const struct in_use others[] = {{target, "the target"}, {job_file, "the job file"}, {NULL, NULL}};
    if (is_free(place, "state", others)) return;
    ssize_t length = read_file(place, front, sizeof front);
    if (length < 0) give_up_by_errno(place);
    if (length && memcmp(front, BARE, strlen(BARE)) && !is_called(WHAT, front, (size_t)length)) give_up(place, "it holds what is no state: none is kept there");
}

void put_aside(const char *state) {
    char old[PATH_MAX];
    path_beside(old, state, ".old");
    if (rename(state, old) && errno != ENOENT) give_up_by_errno(state);
    if (sync_folder(state)) give_up_by_errno(state);
}

struct kept kept_of(uint64_t run, const struct job *job, const struct region *region) {
    struct kept kept = {.run = run, .job = job->number, .region = *region, .text_length = job->text_length};
    if (job->text_length > sizeof kept.text) give_up("the job file", "it is too long");
    memcpy(kept.text, job->text, job->text_length);
    return kept;
}

void tell_moment(char when[MAX_WHEN]) {
    struct timespec now;
    char seconds[MAX_WHEN];
    clock_gettime(CLOCK_REALTIME, &now);
    strftime(seconds, sizeof seconds, "%Y-%m-%dT%H:%M:%S", gmtime(&now.tv_sec));
    snprintf(when, MAX_WHEN, "%.19s.%06uZ", seconds, (unsigned)(now.tv_nsec / 1000) % 1000000);
}

size_t spell_kept(struct kept *kept, uint8_t bytes[MAX_KEPT]) {
    const struct region *region = &kept->region;
    const size_t front = front_of(WHAT);
    char *lines = (char *)bytes + front;
    if (!*kept->when) tell_moment(kept->when);
    size_t length = (size_t)snprintf(lines, MAX_KEPT - front, FORM, kept->run, kept->job, region->offset, region->stride, region->block_size, region->blocks, or_dash(kept->drive), or_dash(kept->boot), or_dash(kept->way), kept->when,
                                     kept->text_length, kept->length);
    memcpy(lines + length, kept->text, kept->text_length);
    memcpy(lines + length + kept->text_length, kept->state, kept->length);
    length += kept->text_length + kept->length;
    seal(WHAT, bytes, length);
    return front + length;
}

void keep_state(const char *path, struct kept *kept) {
    uint8_t bytes[MAX_KEPT];
    keep_file(path, bytes, spell_kept(kept, bytes));
}

/* Takes what stands behind the sum. Returns whether it is all there. */
static bool take_lines(char *lines, size_t length, struct kept *kept) {
    struct region *region = &kept->region;
    lines[length] = 0; /* (there is room for it, and numbers end before the job file does) */
    const char *end = strstr(lines, "\n\n"); /* (a job file may begin with white space) */
    size_t used = end ? (size_t)(end + 2 - lines) : 0;
    int count = sscanf(lines, SCANNED, &kept->run, &kept->job, &region->offset, &region->stride, &region->block_size, &region->blocks, kept->drive, kept->boot, kept->way, kept->when, &kept->text_length, &kept->length);
    if (count != 12 || kept->text_length > sizeof kept->text || kept->length > sizeof kept->state || used + kept->text_length + kept->length != length) return false;
    memcpy(kept->text, lines + used, kept->text_length);
    memcpy(kept->state, lines + used + kept->text_length, kept->length);
    take_dash(kept->drive), take_dash(kept->boot), take_dash(kept->way);
    return true;
}

/* Takes a state that stands alone. Returns why it is none, or NULL. */
static const char *take_bare(const uint8_t *bytes, size_t length, struct kept *kept) {
    if (length < SHORTEST) return "it is too short for a state";
    if (length > sizeof kept->state) return "it is too long for a state";
    kept->is_bare = true, kept->length = length;
    memcpy(kept->state, bytes, length);
    memcpy(&kept->run, bytes + RUN_AT, sizeof kept->run);
    kept->run = be64toh(kept->run);
    return NULL;
}

/* Takes the bytes of a file. Returns why they are none that were kept, or NULL. */
static const char *take_bytes(uint8_t *bytes, size_t length, struct kept *kept) {
    const size_t front = front_of(WHAT);
    *kept = (struct kept){0};
    if (!is_called(WHAT, bytes, length)) return take_bare(bytes, length, kept);
    return is_sealed(WHAT, bytes, length) && take_lines((char *)bytes + front, length - front, kept) ? NULL : "its bytes aren't those that were kept";
}

bool is_kept(const char *path, struct kept *kept) {
    uint8_t bytes[MAX_KEPT + 1];
    struct stat is;
    if (stat(path, &is) || !S_ISREG(is.st_mode)) return false;
    ssize_t length = read_file(path, bytes, MAX_KEPT);
    return length > 0 && !take_bytes(bytes, (size_t)length, kept) && !kept->is_bare;
}

void read_kept(const char *path, struct kept *kept) {
    uint8_t bytes[MAX_KEPT + 1];
    ssize_t length = read_file(path, bytes, MAX_KEPT);
    if (length < 0) give_up_by_errno(path);
    const char *why = take_bytes(bytes, (size_t)length, kept);
    if (why) give_up(path, why);
}

static uint64_t number_at(const struct kept *kept, size_t at) {
    uint64_t number;
    memcpy(&number, kept->state + at, sizeof number);
    return be64toh(number);
}

void count_state(const struct kept *kept, uint64_t *issued, uint64_t *done) {
    enum { ISSUED_AT = 56, FLOOR_AT = 96, WORDS_AT = 104, END = 136 };
    *issued = *done = 0;
    if (kept->length != END) return;
    *issued = number_at(kept, ISSUED_AT), *done = number_at(kept, FLOOR_AT);
    for (size_t at = WORDS_AT; at < END; at += 8) *done += (uint64_t)__builtin_popcountll(number_at(kept, at));
}

struct region region_to_check(const char *path, const struct kept *kept, const struct job *job, uint64_t offset, uint64_t stride) {
    char why[160];
    const struct region *its = &kept->region;
    if (kept->is_bare) return region_of(job, offset, stride);
    if (!its->stride) return region_of(job, offset, stride);
    if ((offset && offset != its->offset) || (stride && stride != its->stride)) {
        snprintf(why, sizeof why, "the run was written with --offset %" PRIu64 " --stride %" PRIu64, its->offset, its->stride);
        give_up(path, why);
    }
    return region_of(job, its->offset, its->stride);
}

void refuse_other_drive(const char *path, const struct kept *kept, const char drive[MAX_DRIVE]) {
    char why[2 * MAX_DRIVE + 80];
    if (!*kept->drive || !*drive || !strcmp(kept->drive, drive)) return;
    snprintf(why, sizeof why, "the run wrote to another drive (%s), and this is (%s); --other-drive takes it all the same", kept->drive, drive);
    give_up(path, why);
}
