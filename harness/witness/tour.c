#include "tour.h"

#include "bytes.h"
#include "clock.h"
#include "commands.h"
#include "drawing.h"
#include "drive.h"
#include "program.h"
#include "say.h"
#include "tiling.h"

#include <errno.h>
#include <inttypes.h>
#include <stdlib.h>
#include <string.h>
#include <unistd.h>

/* So many writes an agent has out at once, at most. */
enum { MOST_DEPTH = 4096 };

/* Gives up where `drive` makes no tours: before the power is cut. */
static void refuse_old_drive(const struct job *job) {
    char said[32] = "";
    const struct job none = {.number = job->number, .text = "", .text_length = 0};
    struct child drive = start_tour(&none);
    end_input(&drive);
    read_all(drive.from, said, sizeof said - 1);
    wait_for(&drive);
    if (!strncmp(said, "bad command", strlen("bad command"))) give_up("drive", "it is older than this harness, and makes no tours");
}

/* How large the target is, as an agent tells it. */
static uint64_t size_by_link(const struct options *options, const struct job *job) {
    const struct hello hello = {.depth = 1, .region = {.block_size = job->block_size, .blocks = 1, .offset = options->offset, .stride = job->block_size}};
    struct link link = open_link(options->link, &hello, job, options->wait);
    const uint64_t size = link.welcome.size;
    end_link(&link);
    return size;
}

/* What is to be covered: as many whole tiles as lie in it. */
static struct cover cover_of(const struct options *options, const struct job *job, const struct region *tile) {
    struct cover cover = {.bytes = options->cover};
    if (!cover.bytes) {
        const uint64_t size = size_by_link(options, job);
        cover.bytes = size > options->offset ? size - options->offset : 0;
    }
    cover.tiles = cover.bytes / (job->blocks * tile->stride);
    if (!cover.tiles) give_up("--cover", "a region of this job is larger than that");
    return cover;
}

/* By a unit no ledger is kept: a fault would be told at each check, so that a faulty tile is left alone. */
static bool is_left_alone(const struct tour *tour, const struct tile *tile) {
    return tour->options->unit && tile->has_faults;
}

/* Whether a tile is to be checked behind the cut of this cycle: its run has ended, and no check of it came
 * behind a cut; or it is one of a cycle whose check was stopped. */
static bool is_unchecked(const struct tour *tour, uint64_t at) {
    const struct tile *tile = &tour->tiles.all[at];
    const bool is_again = tour->cycle.is_resumed && tile->cycle == tour->cycle.number && !is_left_alone(tour, tile);
    return has_state(tile) && (!tile->checked_in || is_again || (!tile->is_behind_cut && tile->checked_in < tour->cycle.number));
}

static bool may_check_again(const struct tour *tour, uint64_t at) {
    const struct tile *tile = &tour->tiles.all[at];
    return has_state(tile) && tile->checked_in && tile->checked_in < tour->cycle.number && !is_left_alone(tour, tile);
}

/* Says how far a check is, once in two seconds. */
static void say_progress(struct tour *tour, const char *which, uint64_t at) {
    if (milliseconds() < tour->next_line) return;
    tour->next_line = milliseconds() + 2000;
    say("%s: tile %" PRIu64 " of %" PRIu64 ", %" PRIu64 " checked", which, at + 1, tour->tiles.count, tour->cycle.checked);
}

/* Checks what was written since the last cut, or before a cycle that showed none, and some older tiles, which
 * are drawn. Returns whether there is a report of each. */
static bool check_cycle(struct tour *tour) {
    bool is_whole = true;
    tour->next_line = milliseconds() + 2000;
    open_report(tour, "report");
    for (uint64_t at = 0; is_whole && at < tour->tiles.next; at++) {
        if (is_unchecked(tour, at)) is_whole = check_tile(tour, at);
        say_progress(tour, "the check", at);
    }
    for (uint64_t number = 0; is_whole && number < tour->options->again; number++) {
        const uint64_t at = drawn_below(&tour->folder, tour->cycle.number, number, tour->tiles.next);
        if (may_check_again(tour, at)) is_whole = check_tile(tour, at);
    }
    close_report(tour);
    return is_whole;
}

/* At the end each tile is checked that wasn't since the last cut. */
static bool check_all(struct tour *tour) {
    bool is_whole = true;
    tour->next_line = milliseconds() + 2000;
    tour->cycle = (struct tour_cycle){.number = tour->folder.totals.cycles, .is_last = true};
    open_report(tour, "last");
    for (uint64_t at = 0; is_whole && at < tour->tiles.next; at++) {
        if (may_check_again(tour, at)) is_whole = check_tile(tour, at);
        say_progress(tour, "the last check", at);
    }
    close_report(tour);
    return is_whole;
}

static struct hello hello_of_tour(const struct tour *tour, const struct job *job) {
    const struct options *options = tour->options;
    struct hello hello = hello_to_write(options, job, &tour->region);
    hello.depth = options->tiles * job->depth, hello.owns = *tour->folder.drive;
    if (!options->other_drive) memcpy(hello.drive, tour->folder.drive, MAX_DRIVE);
    return hello;
}

/* Writes tiles, and has the power cut. */
static void write_cycle(struct tour *tour) {
    const struct options *options = tour->options;
    struct tour_cycle *cycle = &tour->cycle;
    char text[MAX_JOB_TEXT];
    const struct job job = job_of_cycle(options, &tour->folder, tour->job, cycle->number, text);
    const struct hello hello = hello_of_tour(tour, &job);
    take_room(&tour->folder);
    struct link link = open_link(options->link, &hello, &job, options->wait);
    if (!*tour->folder.drive || strcmp(tour->folder.drive, link.welcome.drive)) {
        tell_welcome(&link);
        keep_drive(&tour->folder, link.welcome.drive);
    }
    memcpy(cycle->boot, link.welcome.boot, MAX_BOOT), memcpy(cycle->way, link.welcome.way, MAX_WAY);
    keep_seen(tour);
    struct tiling tiling = make_tiling(&tour->tiles, &job, cycle->number, options->tiles);
    cycle->cut_after = begin_writing(&tour->power, moment_of(options, &tour->folder, cycle->number));
    cycle->tally = run_tiles(options, &tiling, &link, &tour->power);
    free_tiling(&tiling);
    give_room(&tour->folder);
    sync_tiles(&tour->tiles);
    keep_seen(tour);
}

/* Runs that were begun and left no state: nothing is known of their tiles any more. */
static void settle(struct tour *tour) {
    char name[PATH_MAX];
    for (uint64_t at = 0; at < tour->tiles.next; at++) {
        if (tour->tiles.all[at].phase != TILE_BEGUN) continue;
        say("tile %" PRIu64 ": its run left no state, and it is written anew", at);
        note_tile_lost(&tour->tiles, at);
        name_of_tile(tour, at, name);
        if (unlink(name) && errno != ENOENT) give_up_by_errno(name);
    }
}

/* Whether a tile was written and wasn't checked since. */
static bool has_unchecked(const struct tour *tour) {
    for (uint64_t at = 0; at < tour->tiles.next; at++)
        if (has_state(&tour->tiles.all[at]) && !tour->tiles.all[at].checked_in) return true;
    return false;
}

static void end_cycle(struct tour *tour) {
    struct lines lines;
    for (uint64_t at = 0; at < tour->tiles.next; at++) {
        const struct tile *tile = &tour->tiles.all[at];
        if (tile->cycle != tour->cycle.number || !has_state(tile)) continue;
        tour->cycle.whole += tile->is_whole, tour->cycle.cut_short += !tile->is_whole;
    }
    spell_tour_cycle(tour, &lines);
    keep_cycle(&tour->folder, &lines, tour->options);
    if (tour->cycle.cut_short && !tour->cycle.whole) say("no tile was whole before that cut: more is covered with a longer --every, or with fewer writes by io_size");
}

/* Makes the folder, or goes on by it. */
static void open_tour(struct tour *tour) {
    const struct options *options = tour->options;
    char name[PATH_MAX];
    tour->region = region_of(tour->job, options->offset, options->stride);
    const struct cover cover = options->resume ? cover_in_folder(options->place) : cover_of(options, tour->job, &tour->region);
    tour->region.blocks *= cover.tiles;
    tour->folder = open_folder(options, tour->job, &tour->region, draws_orders(options, tour->job), cover);
    name_file(&tour->folder, "tiles", name);
    tour->tiles = open_tiles(name, cover.tiles, tour->job->total, options->tries, options->resume);
    tour->power = (struct power){.off = options->off, .on = options->on, .words = -1};
    tour->began = milliseconds(), tour->begun_with = tiles_done(&tour->tiles);
    say("%" PRIu64 " tiles of %" PRIu64 " blocks of %" PRIu64 " bytes, %" PRIu64 " at once", cover.tiles, tour->job->blocks, tour->region.block_size, options->tiles);
}

/* Whether there has to be a cycle more: tiles are to be written or checked; or no cut came behind some, unless
 * one that had nothing else to show showed none. */
static bool goes_on(const struct tour *tour) {
    uint64_t next;
    const bool is_idle = tour->cycle.is_seen && !tour->cycle.is_resumed && !tour->cycle.tally.ordered && tour->cycle.cut == NO_CUT;
    return next_tile(&tour->tiles, &next) || has_unchecked(tour) || (tiles_behind_no_cut(&tour->tiles) && !is_idle);
}

/* Goes on with a cycle whose check was stopped, or which was stopped before its cut. Returns whether there is
 * one. */
static bool resume_cycle(struct tour *tour) {
    struct tour_cycle *cycle = &tour->cycle;
    *cycle = (struct tour_cycle){.number = tour->folder.totals.cycles + 1};
    if (!tour->options->resume || !(read_seen(tour) || has_unchecked(tour))) return false;
    cycle->is_resumed = true;
    if (tour->tiles.last_cycle == cycle->number) cycle->found = tour->tiles.found_last;
    return true;
}

/* Writes, cuts and checks until no tile is to be written any more. Returns whether all of that was done;
 * else the status, where it isn't 0, says why not. */
static bool go_round(struct tour *tour, int *status) {
    struct tour_cycle *cycle = &tour->cycle;
    bool is_there = resume_cycle(tour);
    while (is_there || goes_on(tour)) {
        if (!is_there) {
            *cycle = (struct tour_cycle){.number = tour->folder.totals.cycles + 1};
            write_cycle(tour);
            if (!cycle->tally.is_cut && !cycle->tally.failed) return false; /* (it was stopped) */
        }
        give_power_back(&tour->power);
        if (!check_cycle(tour) || cycle->tally.failed) *status = STATUS_FAILED;
        end_cycle(tour);
        if (*status || !may_go_on(&tour->power, faults_in(&cycle->found) > 0, tour->options->keep_going)) return false;
        is_there = false;
    }
    return true;
}

int tour_by_agent(const struct options *options, const struct job *job) {
    static struct tour tour;
    int status = STATUS_SOUND;
    tour = (struct tour){.options = options, .job = job};
    refuse_old_drive(job);
    if (options->tiles * job->depth > MOST_DEPTH) give_up("--tiles", "more writes would be out at once than an agent takes, which is 4096");
    open_tour(&tour);
    if (options->resume) give_power_back(&tour.power), settle(&tour);
    bool is_over = go_round(&tour, &status);
    if (is_over && !check_all(&tour)) status = STATUS_FAILED;
    return tell_tour(&tour, is_over, status);
}
