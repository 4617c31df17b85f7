#include "targets.h"

#include "bytes.h"
#include "contents.h"
#include "identity.h"
#include "keeping.h"
#include "say.h"
#include "sum.h"

#include <errno.h>
#include <inttypes.h>
#include <limits.h>
#include <stdio.h>
#include <string.h>
#include <unistd.h>

/* How the file begins, with the sum of all lines that stand behind this. One that begins otherwise is of
 * an earlier version, or none. */
#define MAGIC "fleet-server targets 1\nsum "
enum { FRONT = sizeof MAGIC - 1 + 9, MAX_LINE = MAX_DRIVE + 80, MAX_BYTES = FRONT + MOST_JOBS * MAX_LINE };

/* A line for each job, and whether a file has them as they were kept. */
struct lines {
    size_t count;
    bool is_harmed;
    char of[MOST_JOBS][MAX_LINE];
};

/* Refuses two jobs at one place, and places that no target has, for the most blocks that a job has. */
static void refuse_places(const struct options *options) {
    const struct place *places = options->places;
    for (size_t at = 0; at < options->place_count; at++) {
        if (places[at].offset > INT64_MAX / 2 || places[at].stride > INT64_MAX / 2 / MOST_BLOCKS) give_up(places[at].path, "no target reaches so far");
        for (size_t other = 0; other < at; other++) {
            char why[120];
            if (strcmp(places[at].path, places[other].path) || places[at].offset != places[other].offset) continue;
            snprintf(why, sizeof why, "jobs %zu and %zu both begin at byte %" PRIu64 " of it", other, at, places[at].offset);
            give_up(places[at].path, why);
        }
    }
}

static void sum_of(char sum[9], const char *lines, size_t length) {
    snprintf(sum, 9, "%08" PRIx32, sum_over(0, lines, length));
}

/* The lines that were kept; none where there is no such file. */
static struct lines read_lines(const char *path) {
    char bytes[MAX_BYTES + 1] = "", sum[9];
    struct lines lines = {0};
    ssize_t length = read_file(path, bytes, sizeof bytes - 1);
    if (length < 0 && errno != ENOENT) give_up_by_errno(path);
    if (length < (ssize_t)strlen(MAGIC) || memcmp(bytes, MAGIC, strlen(MAGIC))) return lines;
    lines.is_harmed = length < FRONT || bytes[FRONT - 1] != '\n' || strlen(bytes) != (size_t)length;
    if (!lines.is_harmed) sum_of(sum, bytes + FRONT, (size_t)length - FRONT), lines.is_harmed = memcmp(bytes + strlen(MAGIC), sum, 8) != 0;
    char *line = bytes + FRONT, *end;
    for (; !lines.is_harmed && (end = strchr(line, '\n')) && lines.count < MOST_JOBS; line = end + 1) snprintf(lines.of[lines.count++], MAX_LINE, "%.*s", (int)(end - line), line);
    return lines;
}

static bool are_same(const struct lines *lines, const struct lines *others) {
    bool same = lines->count == others->count;
    for (size_t at = 0; same && at < lines->count; at++) same = strcmp(lines->of[at], others->of[at]) == 0;
    return same;
}

static void keep_lines(const char *path, const struct lines *lines) {
    char bytes[MAX_BYTES + 1], sum[9];
    size_t length = FRONT;
    for (size_t at = 0; at < lines->count; at++) length += (size_t)snprintf(bytes + length, sizeof bytes - length, "%s\n", lines->of[at]);
    sum_of(sum, bytes + FRONT, length - FRONT);
    memcpy(bytes, MAGIC, strlen(MAGIC)), memcpy(bytes + strlen(MAGIC), sum, 8), bytes[FRONT - 1] = '\n';
    keep_file(path, bytes, length);
}

/* The line of a job on this drive. */
static void put_line(char line[MAX_LINE], const struct place *place, const char *drive) {
    snprintf(line, MAX_LINE, "offset %" PRIu64 " stride %" PRIu64 " of %s", place->offset, place->stride, *drive ? drive : "-");
}

/* Whether what is told of a drive tells it from others: a size alone doesn't. */
static bool is_told(const char *drive) {
    return strstr(drive, "serial ") || strstr(drive, "number ") || strstr(drive, "file ");
}

/* Refuses what was kept and isn't so now. */
static void refuse_others(const char *path, const struct options *options, const struct lines *kept, const struct lines *lines) {
    char why[2 * MAX_LINE + 120];
    if (kept->is_harmed) give_up(path, "its bytes aren't those that were kept, so nobody knows which drives the targets were: --yes writes over those that are here");
    for (size_t at = 0; at < kept->count && at < lines->count; at++) {
        if (!strcmp(kept->of[at], lines->of[at])) continue;
        snprintf(why, sizeof why, "it isn't what job %zu had here, which was at %s, and this is at %s: --yes writes over it", at, kept->of[at], lines->of[at]);
        give_up(options->places[at].path, why);
    }
}

/* Opens a target, or finds it among those that are open. Where a server had one before, none is made. */
static bool open_one(const struct options *options, size_t at, const struct lines *kept, struct target targets[MOST_JOBS], size_t target_of[MOST_JOBS]) {
    const char *path = options->places[at].path;
    struct opening opening = options->opening;
    size_t same = 0;
    bool is_new = false;
    while (strcmp(options->places[same].path, path)) same++;
    target_of[at] = same, opening.name = path;
    if (same == at && at < kept->count && !opening.yes && access(path, F_OK)) {
        char why[MAX_LINE + 60];
        snprintf(why, sizeof why, "it isn't there, and job %zu had this: %s", at, kept->of[at]);
        give_up(path, why);
    }
    if (same == at) targets[at] = open_for_later(&opening, &is_new);
    return is_new;
}

void open_targets(const struct options *options, struct target targets[MOST_JOBS], size_t target_of[MOST_JOBS]) {
    char path[PATH_MAX], drive[MAX_DRIVE];
    bool looks[MOST_JOBS];
    refuse_places(options);
    path_beside(path, options->note, ".targets");
    struct lines kept = read_lines(path), lines = {.count = options->place_count};
    for (size_t at = 0; at < lines.count; at++) {
        bool is_new = open_one(options, at, &kept, targets, target_of);
        tell_drive(&targets[target_of[at]], drive);
        put_line(lines.of[at], &options->places[at], drive);
        looks[at] = target_of[at] == at && !is_new && !options->opening.yes && (at >= kept.count || !is_told(drive));
    }
    if (!options->opening.yes) refuse_others(path, options, &kept, &lines);
    for (size_t at = 0; at < lines.count; at++)
        if (looks[at]) refuse_other_bytes(&targets[at], NULL);
    if (!are_same(&kept, &lines)) keep_lines(path, &lines);
}
