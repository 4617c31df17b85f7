#include "tour.h"

#include "drawing.h"
#include "ledger.h"
#include "map.h"
#include "say.h"
#include "verdict.h"

#include <errno.h>
#include <inttypes.h>
#include <stdlib.h>
#include <string.h>
#include <unistd.h>

static struct region region_of_tile(const struct tour *tour, uint64_t at) {
    struct region region = tour->region;
    region.offset = place_of(&region, at * tour->job->blocks), region.blocks = tour->job->blocks;
    return region;
}

void name_of_tile(const struct tour *tour, uint64_t at, char name[PATH_MAX]) {
    if (snprintf(name, PATH_MAX, "%s/tile-%06" PRIu64 ".ledger", tour->folder.path, at) >= PATH_MAX) give_up(tour->folder.path, strerror(ENAMETOOLONG));
}

/* A tile that is being checked. */
struct tile_check {
    struct tour *tour;
    uint64_t at;
    const struct tile *tile;
    struct kept kept;
    struct job job;
    char text[MAX_JOB_TEXT], name[PATH_MAX];
    struct ledger ledger;
    struct map map;
    struct known_runs runs; /* those of all tiles, once a line tells of a fault */
};

/* Tells a line of `drive` with the tile in front, and behind the run of another tile which one that is.
 * Returns whether there is such a one. */
static bool tell_line(const struct tile_check *check, const char *line, size_t length) {
    fprintf(check->tour->report, "tile %" PRIu64 ": ", check->at);
    const bool has_other = write_with_runs(check->tour->report, line, length, &check->runs, check->at);
    fputc('\n', check->tour->report);
    return has_other;
}

/* Counts a faulty block by its line. */
static void count_line(const struct tile_check *check, const char *line, size_t length, struct findings *found) {
    char kind[32] = "";
    sscanf(line, "block %*u %31[a-z-]:", kind);
    const bool has_other = tell_line(check, line, length), was_sound = check->tile->checked_in != 0;
    if (!strcmp(kind, "unread")) found->unread++;
    else if (has_other || !strcmp(kind, "misdirected")) found->misdirected++;
    else if (was_sound || !strcmp(kind, "at-rest")) found->at_rest++;
    else found->in_flight++;
}

/* Counts the faulty blocks by their lines, which have to be as many as the report says. */
static void count_lines(struct tile_check *check, uint64_t faults, struct findings *found) {
    for (const char *line = check->map.text; !strncmp(line, "block ", 6); line = strchr(line, '\n') + 1) {
        if (!check->runs.word) check->runs = runs_of_tiles(&check->tour->tiles);
        count_line(check, line, strcspn(line, "\n"), found);
    }
    if (faults_in(found) != faults) give_up("drive", "its report has another number of faults than it has lines");
}

/* Notes what was found, and keeps what is asked of the tile from now on, where its state doesn't say that. It is
 * noted first: a loss is asked for no more behind that, and would be told by nobody. */
static void end_check(struct tile_check *check, const struct findings *found) {
    struct tour *tour = check->tour;
    note_tile_checked(&tour->tiles, check->at, tour->cycle.number, found);
    if (tour->options->unit) return;
    const bool is_alone = check->job.writes_all || !check->ledger.bytes; /* (no other run's writes are asked for) */
    if (check->tile->is_whole && !check->tile->has_faults && is_alone) {
        if (unlink(check->name) && errno != ENOENT) give_up_by_errno(check->name);
        return;
    }
    sync_tiles(&tour->tiles);
    keep_ledger_of(&check->map, tour->folder.drive);
}

static void prepare(struct tile_check *check, struct tour *tour, uint64_t at) {
    const struct region region = region_of_tile(tour, at);
    *check = (struct tile_check){.tour = tour, .at = at, .tile = &tour->tiles.all[at]};
    check->job = job_of_cycle(tour->options, &tour->folder, tour->job, check->tile->cycle, check->text);
    check->kept = kept_of(check->tile->run, &check->job, &region);
    memcpy(check->kept.drive, tour->folder.drive, MAX_DRIVE), memcpy(check->kept.state, check->tile->state, STATE_BYTES);
    check->kept.length = STATE_BYTES;
    name_of_tile(tour, at, check->name);
    if (!tour->options->unit) check->ledger = read_ledger(check->name);
}

static void keep_bytes(const struct tile_check *check) {
    char place[PATH_MAX];
    struct tour *tour = check->tour;
    if (snprintf(place, PATH_MAX, "%s/cycle-%06" PRIu64 ".tile-%" PRIu64, tour->folder.path, tour->cycle.number, check->at) >= PATH_MAX) give_up(tour->folder.path, strerror(ENAMETOOLONG));
    end_sitting(&tour->sitting);
    dump_by_link(tour->options, &check->job, &check->map.region, &check->kept, place, &check->map);
}

static void add_faulty(struct tour *tour, uint64_t at) {
    const size_t length = strlen(tour->faulty), room = sizeof tour->faulty - length;
    if (room > 32) snprintf(tour->faulty + length, room, "%s%" PRIu64, length ? ", " : "", at);
    else if (tour->faulty[length - 1] != '.') snprintf(tour->faulty + length, room, ", ..");
}

/* Whether a cut was shown since the run of a tile was begun: that of this cycle, or one before it. */
static bool is_behind_cut(const struct tour *tour, uint64_t at) {
    return tour->cycle.cut != NO_CUT || tour->folder.totals.last_cut >= tour->tiles.all[at].cycle;
}

/* What showed a cut is known once the machine under test answers. */
static void note_start(struct tour *tour, const char *boot) {
    struct tour_cycle *cycle = &tour->cycle;
    if (!cycle->is_last && !cycle->is_seen) cycle->cut = shown_cut(tour->options, &cycle->tally, cycle->boot, boot);
    cycle->is_seen = true;
}

bool check_tile(struct tour *tour, uint64_t at) {
    static struct tile_check check;
    struct welcome welcome;
    prepare(&check, tour, at);
    const struct basis basis = basis_of(&check.kept, tour->options->unit ? NULL : &check.ledger, false);
    check_part(tour->options, &check.job, &tour->sitting, at * tour->job->blocks, &basis, &check.map, &welcome);
    tour->cycle.checked++;
    note_start(tour, welcome.boot);
    const struct verdict verdict = verdict_of(&check.map);
    const bool is_whole = verdict.is_report && (tour->options->unit || check.map.ledger);
    struct findings found = {.asked = verdict.checked, .is_behind_cut = is_behind_cut(tour, at)}, *sum = &tour->cycle.found;
    if (is_whole) {
        count_lines(&check, verdict.faults, &found);
        if (faults_in(&found)) add_faulty(tour, at), keep_bytes(&check);
        fflush(tour->report);
        end_check(&check, &found);
        sum->asked += found.asked, sum->in_flight += found.in_flight, sum->at_rest += found.at_rest;
        sum->misdirected += found.misdirected, sum->unread += found.unread;
    } else
        fprintf(stderr, "%s", report_of_map(&check.map));
    free_runs(&check.runs), free_ledger(&check.ledger), free_map(&check.map);
    return is_whole;
}

void open_report(struct tour *tour, const char *ending) {
    char name[PATH_MAX];
    name_of(&tour->folder, tour->cycle.number, ending, name);
    tour->report = fopen(name, "a"), tour->faulty[0] = 0, tour->sitting = (struct sitting){.region = tour->region};
    if (!tour->report) give_up_by_errno(name);
}

void close_report(struct tour *tour) {
    end_sitting(&tour->sitting);
    if (ferror(tour->report) || fflush(tour->report) || fsync(fileno(tour->report)) || fclose(tour->report)) give_up_by_errno("the report");
    tour->report = NULL;
}
