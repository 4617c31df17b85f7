#include "folder.h"

#include "bytes.h"
#include "keeping.h"
#include "say.h"
#include "state.h"

#include <errno.h>
#include <fcntl.h>
#include <inttypes.h>
#include <stdio.h>
#include <stdlib.h>
#include <string.h>
#include <sys/stat.h>
#include <time.h>
#include <unistd.h>

enum { MAX_SETTINGS = 1 << 17, MAX_ROOM = 1 << 20 };

static const char LINES[] = "cycles.jsonl", SETTINGS[] = "settings", DRIVE[] = "drive", ROOM[] = "room";

void name_of(const struct folder *folder, uint64_t cycle, const char *ending, char name[PATH_MAX]) {
    int length = snprintf(name, PATH_MAX, "%s/cycle-%06" PRIu64 "%s%s", folder->path, cycle, ending ? "." : "", ending ? ending : "");
    if (length >= PATH_MAX) give_up(folder->path, strerror(ENAMETOOLONG));
}

void name_file(const struct folder *folder, const char *file, char name[PATH_MAX]) {
    if (snprintf(name, PATH_MAX, "%s/%s", folder->path, file) >= PATH_MAX) give_up(folder->path, strerror(ENAMETOOLONG));
}

/* Stands behind the seed where the orders are drawn by it. */
static const char DRAWN[] = "orders drawn\n";

/* And behind that where it is a tour: of so many tiles. */
#define TILED "tour of tiles "
#define BYTES " of bytes "

/* What has to be the same for all cycles of a series: its job file and its region. What is drawn stands
 * before it. */
static size_t settings_of(const struct job *job, const struct region *region, const struct folder *folder, char *text) {
    char tiles[80] = "";
    if (folder->tour.tiles) snprintf(tiles, sizeof tiles, TILED "%" PRIu64 BYTES "%" PRIu64 " unit %" PRIu64 "\n", folder->tour.tiles, folder->tour.bytes, job->unit);
    int front = snprintf(text, MAX_LINE, "seed %" PRIu64 "\n%s%sjob %" PRIu64 " offset %" PRIu64 " stride %" PRIu64 "\n", folder->seed, folder->draws_orders ? DRAWN : "", tiles, job->number, region->offset, region->stride);
    memcpy(text + front, job->text, job->text_length);
    return (size_t)front + job->text_length;
}

uint64_t number_in(const char *line, const char *name) {
    const char *found = strstr(line, name);
    return found ? strtoull(found + strlen(name), NULL, 10) : 0;
}

/* What a line says of its cut. */
static const char *const SHOWN[] = {"none", "word", "fall", "start"};

enum cut shown_cut(const struct options *options, const struct tally *tally, const char *before, const char *behind) {
    if (!tally->is_cut || tally->was_early) return NO_CUT;
    if (*before && *behind && strcmp(before, behind)) return CUT_BY_START;
    if (options->drive_only && tally->has_fallen) return CUT_BY_FALL;
    return options->trust_off ? CUT_BY_WORD : NO_CUT;
}

const char *word_of_cut(enum cut cut) {
    return SHOWN[cut];
}

static enum cut cut_in(const char *line) {
    const char *found = strstr(line, "\"cut\": \"");
    for (int cut = CUT_BY_START; found && cut > NO_CUT; cut--)
        if (!strncmp(found + 8, SHOWN[cut], strlen(SHOWN[cut]))) return (enum cut)cut;
    return NO_CUT;
}

static void count_line(struct totals *totals, const char *line) {
    const uint64_t checked = number_in(line, "\"checked\": "), faults = number_in(line, "\"faults\": "), flying = number_in(line, "\"in_flight\": ");
    const enum cut cut = cut_in(line);
    totals->cycles++;
    totals->checked += checked, totals->faults += faults, totals->at_rest += number_in(line, "\"at_rest\": ");
    totals->faulty += faults > 0, totals->unchecked += checked == 0;
    totals->cuts += cut != NO_CUT, totals->trusted += cut == CUT_BY_WORD;
    totals->judged += cut != NO_CUT && checked;
    if (cut != NO_CUT) totals->last_cut = totals->cycles;
    totals->flying_cuts += cut != NO_CUT && flying, totals->in_flight += cut != NO_CUT ? flying : 0;
}

/* Counts the cycles that are over, by their lines. A line that was cut short is of a cycle that isn't
 * over, and is taken away. */
static void count_cycles(struct folder *folder) {
    char name[PATH_MAX], line[MAX_LINE];
    name_file(folder, "cycles.json", name);
    if (!access(name, F_OK)) give_up(name, "it is of a series of an earlier version, with which this one doesn't go on");
    name_file(folder, LINES, name);
    FILE *lines = fopen(name, "r+");
    long end = 0;
    if (!lines && errno != ENOENT) give_up_by_errno(name);
    while (lines && fgets(line, sizeof line, lines) && strchr(line, '\n')) {
        count_line(&folder->totals, line);
        end = ftell(lines);
    }
    if (lines && (ftruncate(fileno(lines), end) || fsync(fileno(lines)))) give_up_by_errno(name);
    if (lines) fclose(lines);
}

struct known_runs runs_of_cycles(const struct folder *folder) {
    char name[PATH_MAX], line[MAX_LINE];
    struct known_runs runs = {.word = "cycle"};
    name_file(folder, LINES, name);
    FILE *lines = fopen(name, "r");
    if (!lines && errno != ENOENT) give_up_by_errno(name);
    while (lines && fgets(line, sizeof line, lines)) add_run(&runs, number_in(line, "\"run\": \""), number_in(line, "\"cycle\": "));
    if (lines) fclose(lines);
    sort_runs(&runs);
    return runs;
}

static void read_drive(struct folder *folder) {
    char name[PATH_MAX];
    name_file(folder, DRIVE, name);
    ssize_t length = read_file(name, folder->drive, sizeof folder->drive - 1);
    if (length < 0 && errno != ENOENT) give_up_by_errno(name);
    folder->drive[length < 0 ? 0 : length] = 0;
    folder->drive[strcspn(folder->drive, "\n")] = 0;
}

void keep_drive(struct folder *folder, const char drive[MAX_DRIVE]) {
    char name[PATH_MAX], line[MAX_DRIVE + 2];
    name_file(folder, DRIVE, name);
    snprintf(folder->drive, sizeof folder->drive, "%s", drive);
    keep_file(name, line, (size_t)snprintf(line, sizeof line, "%s\n", drive));
}

void take_room(const struct folder *folder) {
    char name[PATH_MAX];
    name_file(folder, ROOM, name);
    int fd = open(name, O_WRONLY | O_CREAT | O_CLOEXEC, 0644);
    int error = fd < 0 ? errno : posix_fallocate(fd, 0, MAX_ROOM);
    if (error) give_up(name, strerror(error));
    close(fd);
}

void give_room(const struct folder *folder) {
    char name[PATH_MAX];
    name_file(folder, ROOM, name);
    unlink(name);
}

static void keep_settings(const struct folder *folder, const char *name, const char *text, size_t length) {
    int fd = open(name, O_WRONLY | O_CREAT | O_EXCL | O_CLOEXEC, 0644);
    if (fd < 0 && errno == EEXIST) give_up(folder->path, "a series is there already: --resume goes on with it");
    if (fd < 0 || write_all(fd, text, length) || fsync(fd) || close(fd) || sync_folder(name)) give_up_by_errno(name);
}

/* Takes what the settings say of what is drawn. */
static void take_draws(struct folder *folder, const char *name, const char *kept) {
    int used;
    if (sscanf(kept, "seed %" SCNu64 "%n", &folder->seed, &used) != 1) give_up(name, "it says no seed");
    folder->draws_orders = kept[used] == '\n' && !strncmp(kept + used + 1, DRAWN, strlen(DRAWN));
}

struct cover cover_in_folder(const char *path) {
    static char kept[MAX_SETTINGS];
    char name[PATH_MAX];
    name_file(&(struct folder){.path = path}, SETTINGS, name);
    ssize_t length = read_file(name, kept, MAX_SETTINGS - 1);
    if (length < 0) give_up_by_errno(name);
    kept[length] = 0;
    const char *line = strstr(kept, "\n" TILED), *job = strstr(kept, "\njob "); /* (behind that stands the job file) */
    if (!line || !job || line > job) give_up(name, "that is a series of cycles, and no tour");
    return (struct cover){number_in(line, TILED), number_in(line, BYTES)};
}

struct folder open_folder(const struct options *options, const struct job *job, const struct region *region, bool draws_orders, struct cover tour) {
    static char text[MAX_SETTINGS], kept[MAX_SETTINGS];
    char name[PATH_MAX];
    struct folder folder = {.path = options->place, .seed = options->seed ? options->seed : draw_number(), .draws_orders = draws_orders, .tour = tour};
    if (job->text_length > MAX_SETTINGS - MAX_LINE) give_up(options->job_file, "it is too long");
    if (mkdir(folder.path, 0755) && errno != EEXIST) give_up_by_errno(folder.path);
    name_file(&folder, SETTINGS, name);
    if (!options->resume) {
        keep_settings(&folder, name, text, settings_of(job, region, &folder, text));
        return folder;
    }
    ssize_t length = read_file(name, kept, MAX_SETTINGS - 1);
    if (length < 0) give_up_by_errno(name);
    take_draws(&folder, name, kept);
    if (folder.draws_orders && options->same_order) give_up("--same-order", "that series has drawn the orders of its runs, and goes on so");
    if ((size_t)length != settings_of(job, region, &folder, text) || memcmp(text, kept, (size_t)length)) give_up(name, "that series has another job or region");
    count_cycles(&folder);
    read_drive(&folder);
    return folder;
}

/* The kinds of a cycle's faults as an object of JSON. */
static void spell_kinds(const char *kinds, char text[MAX_LINE / 4]) {
    size_t length = 0;
    char kind[32];
    uint64_t count;
    int used;
    for (; sscanf(kinds, " %31s %" SCNu64 "%n", kind, &count, &used) == 2; kinds += used)
        length += (size_t)snprintf(text + length, MAX_LINE / 4 - length, "%s\"%s\": %" PRIu64, length ? ", " : "", kind, count);
    text[length] = 0;
}

void spell_drive(uint64_t drive, char whose[32]) {
    whose[0] = 0;
    if (drive) snprintf(whose, 32, "drive %" PRIu64 ": ", drive);
}

static void spell_kept_line(const struct cycle *cycle, uint64_t drive, char line[MAX_LINE]) {
    const struct tally *tally = &cycle->tally;
    char kinds[MAX_LINE / 4], when[32], whose[32] = "", at_rest[24] = "null";
    time_t now = time(NULL);
    spell_kinds(cycle->kinds, kinds);
    strftime(when, sizeof when, "%Y-%m-%dT%H:%M:%SZ", gmtime(&now));
    if (drive) snprintf(whose, sizeof whose, "\"drive\": %" PRIu64 ", ", drive);
    if (cycle->by_ledger) snprintf(at_rest, sizeof at_rest, "%" PRIu64, cycle->at_rest);
    snprintf(line, MAX_LINE,
             "{%s\"cycle\": %" PRIu64 ", \"run\": \"%" PRIu64 "\", \"time\": \"%s\", \"cut_after\": %.3f, \"seconds\": %.3f, \"cut\": \"%s\", \"ordered\": %" PRIu64
             ", \"told\": %" PRIu64 ", \"failed\": %" PRIu64 ", \"in_flight\": %" PRIu64 ", \"checked\": %" PRIu64 ", \"faults\": %" PRIu64 ", \"at_rest\": %s, \"kinds\": {%s}, \"way\": \"%s\"}\n",
             whose, cycle->number, tally->run, when, (double)cycle->cut_after / 1000, (double)tally->milliseconds / 1000, SHOWN[cycle->cut], tally->ordered,
             tally->told, tally->failed, in_flight(tally), cycle->checked, cycle->faults, at_rest, kinds, cycle->way);
}

void spell_cycle(const struct cycle *cycle, const struct options *options, struct lines *lines) {
    const struct tally *tally = &cycle->tally;
    char whose[32], at_rest[48] = "";
    spell_drive(options->drive, whose);
    spell_kept_line(cycle, options->drive, lines->kept);
    if (cycle->by_ledger) snprintf(at_rest, sizeof at_rest, ", %" PRIu64 " lost at rest", cycle->at_rest);
    snprintf(lines->printed, MAX_LINE, "%scycle %" PRIu64 ": run %" PRIu64 ", %" PRIu64 " ordered, %" PRIu64 " told, %" PRIu64 " in flight, %" PRIu64 " checked, %" PRIu64 " faults%s%s%s%s, %.1f s\n",
             whose, cycle->number, tally->run, tally->ordered, tally->told, in_flight(tally), cycle->checked, cycle->faults, *cycle->kinds ? ": " : "", cycle->kinds, at_rest,
             cycle->cut == NO_CUT ? ", no cut" : cycle->cut == CUT_BY_WORD ? ", cut by the word of --off" : "", (double)tally->milliseconds / 1000);
}

void keep_cycle(struct folder *folder, const struct lines *lines, const struct options *options) {
    char name[PATH_MAX];
    name_file(folder, LINES, name);
    int fd = open(name, O_WRONLY | O_CREAT | O_APPEND | O_CLOEXEC, 0644);
    if (fd < 0 || write_all(fd, lines->kept, strlen(lines->kept)) || fsync(fd) || close(fd) || sync_folder(name)) give_up_by_errno(name);
    count_line(&folder->totals, lines->kept);
    fputs(options->json ? lines->kept : lines->printed, stdout);
    fflush(stdout);
}
