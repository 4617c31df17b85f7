#include "commands.h"

#include "drawing.h"
#include "folder.h"
#include "map.h"
#include "say.h"
#include "seeded.h"
#include "stopped.h"
#include "verdict.h"

#include <inttypes.h>
#include <stdio.h>
#include <string.h>
#include <unistd.h>

/* Keeps what is told of each faulty block, with the cycle of each earlier run, and the report. */
static void keep_report(const struct folder *folder, const struct cycle *cycle, const struct map *map) {
    char name[PATH_MAX];
    struct known_runs runs = runs_of_cycles(folder);
    name_of(folder, cycle->number, "report", name);
    FILE *kept = fopen(name, "w");
    if (!kept) give_up_by_errno(name);
    write_with_runs(kept, map->text, map->length, &runs, cycle->number);
    if (ferror(kept) || fflush(kept) || fsync(fileno(kept)) || fclose(kept)) give_up_by_errno(name);
    free_runs(&runs);
}

/* A series, and its cycle that is under way. */
struct series {
    const struct options *options;
    const struct job *job; /* as the job file says it */
    struct region region;
    struct folder folder;
    bool keeps_ledger;
    char ledger_name[PATH_MAX];
    struct ledger ledger;
    struct power power;
    struct cycle cycle;
    struct kept kept;
    struct job ran; /* the job as its run had it */
    struct map map; /* of its check */
};

/* Checks a run whose state was kept, or was lost. Returns whether there is a report of the whole
 * region. */
static bool check_cycle(struct series *series, bool is_lost) {
    struct welcome welcome;
    struct cycle *cycle = &series->cycle;
    const struct kept *kept = &series->kept;
    const struct basis basis = basis_of(kept, series->keeps_ledger ? &series->ledger : NULL, is_lost);
    series->ran = job_to_check(series->folder.path, kept, series->job);
    check_by_link(series->options, &series->ran, &series->region, &basis, &series->map, &welcome);
    cycle->cut = shown_cut(series->options, &cycle->tally, kept->boot, welcome.boot);
    memcpy(cycle->way, kept->way, MAX_WAY);
    keep_report(&series->folder, cycle, &series->map);
    const struct verdict verdict = verdict_of(&series->map);
    cycle->checked = verdict.checked, cycle->faults = verdict.faults;
    cycle->by_ledger = series->keeps_ledger, cycle->at_rest = verdict.at_rest;
    memcpy(cycle->kinds, verdict.kinds, sizeof cycle->kinds);
    if (!verdict.is_report) fputs(report_of_map(&series->map), stderr);
    return verdict.is_report && (!series->keeps_ledger || series->map.ledger);
}

/* Keeps the ledger behind a check, and goes on by it. */
static void renew_ledger(struct series *series) {
    keep_ledger_of(&series->map, series->folder.drive);
    free_ledger(&series->ledger);
    series->ledger = read_ledger(series->ledger_name);
}

/* Keeps what is told of a cycle that is over, with its ledger, and then the bytes of its first faulty
 * blocks. */
static void end_cycle(struct series *series) {
    char name[PATH_MAX];
    struct lines lines;
    spell_cycle(&series->cycle, series->options, &lines);
    if (series->keeps_ledger) {
        note_lines(&series->folder, &lines);
        renew_ledger(series);
    }
    keep_cycle(&series->folder, &lines, series->options);
    name_of(&series->folder, series->cycle.number, NULL, name);
    dump_by_link(series->options, &series->ran, &series->region, &series->kept, name, &series->map);
    free_map(&series->map);
}

/* Writes, and has the power cut. What is stopped before that leaves no state. */
static void write_cycle(struct series *series) {
    const struct options *options = series->options;
    struct folder *folder = &series->folder;
    struct cycle *cycle = &series->cycle;
    char name[PATH_MAX], text[MAX_JOB_TEXT];
    const struct job job = job_of_cycle(options, folder, series->job, cycle->number, text);
    struct hello hello = hello_to_write(options, &job, &series->region);
    hello.owns = *folder->drive;
    if (!options->other_drive) memcpy(hello.drive, folder->drive, MAX_DRIVE);
    take_room(folder);
    /* (with --local the agent orders writes by itself as soon as it has heard the hello) */
    if (series->keeps_ledger && options->local) note_begun(folder, hello.run);
    struct link link = open_link(options->link, &hello, &job, options->wait);
    if (series->keeps_ledger) note_begun(folder, hello.run);
    if (!*folder->drive || strcmp(folder->drive, link.welcome.drive)) {
        tell_welcome(&link);
        keep_drive(folder, link.welcome.drive);
    }
    cycle->cut_after = begin_writing(&series->power, moment_of(options, folder, cycle->number));
    cycle->tally = run_job(options, &job, &link, &series->power);
    series->kept = kept_by(&cycle->tally, &job, &link);
    give_room(folder);
    name_of(folder, cycle->number, cycle->tally.is_cut || cycle->tally.failed ? "state" : "stopped", name);
    keep_state(name, &series->kept);
}

/* Reads a state of the next cycle, where one was kept, and what its run had ordered and was told. */
static bool read_cycle(struct series *series, const char *ending) {
    char name[PATH_MAX];
    struct cycle *cycle = &series->cycle;
    name_of(&series->folder, cycle->number, ending, name);
    if (access(name, F_OK)) return false;
    read_kept(name, &series->kept);
    cycle->tally.run = series->kept.run;
    count_state(&series->kept, &cycle->tally.ordered, &cycle->tally.told);
    return true;
}

/* A cycle whose state was kept, and which was stopped before its check: it is checked first. */
static bool has_unchecked(struct series *series) {
    series->cycle.tally.is_cut = read_cycle(series, "state");
    return series->cycle.tally.is_cut;
}

/* Takes a run into the ledger that was begun and then stopped, with its state where that was kept: else
 * what it may have written would be told as lost. Where the check finds faults it is a cycle, without a
 * cut. Returns whether the series goes on. */
static bool settle(struct series *series, int *status) {
    const uint64_t run = begun_last(&series->folder);
    struct cycle *cycle = &series->cycle;
    *cycle = (struct cycle){.number = series->folder.totals.cycles + 1};
    if (!series->ledger.bytes || !run || run == series->ledger.run || (read_cycle(series, "state") && series->kept.run == run)) return true;
    const bool is_lost = !read_cycle(series, "stopped") || series->kept.run != run;
    if (is_lost) {
        char text[MAX_JOB_TEXT];
        const struct job job = job_of_cycle(series->options, &series->folder, series->job, cycle->number, text);
        cycle->tally = (struct tally){.run = run};
        series->kept = kept_of(run, &job, &series->region);
        memcpy(series->kept.drive, series->folder.drive, MAX_DRIVE);
    }
    say("run %" PRIu64 " was stopped%s: it is taken into the ledger first", run, is_lost ? ", and left no state" : "");
    if (!check_cycle(series, is_lost)) {
        *status = STATUS_FAILED;
        return false;
    }
    if (cycle->faults) {
        end_cycle(series);
        return may_go_on(&series->power, true, series->options->keep_going);
    }
    renew_ledger(series);
    free_map(&series->map);
    return true;
}

/* Goes on by the folder's ledger, or puts one aside that isn't this series's, or wouldn't know of what is
 * written from now on. */
static void begin_ledger(struct series *series) {
    const struct options *options = series->options;
    series->keeps_ledger = !options->no_ledger && !options->unit;
    if (options->unit && !options->no_ledger) say("no ledger is kept: one goes by whole blocks, and not by --unit");
    name_file(&series->folder, "ledger", series->ledger_name);
    if (!series->keeps_ledger || !options->resume) put_aside(series->ledger_name);
    if (series->keeps_ledger) series->ledger = ledger_to_check(series->ledger_name, &series->region, options->other_drive ? "" : series->folder.drive, NULL, NULL);
}

/* Goes on where the series was stopped. Returns whether it goes on behind that. */
static bool resume(struct series *series, int *status) {
    const struct options *options = series->options;
    struct folder *folder = &series->folder;
    struct lines lines;
    if (series->power.words < 0) give_power_back(&series->power);
    if (!series->keeps_ledger) return true;
    if (find_lines(folder, series->ledger.run, &lines)) keep_cycle(folder, &lines, options);
    return (options->cycles && folder->totals.cycles >= options->cycles) || settle(series, status);
}

/* Prints what the series comes to, and what that says of the drive. */
static int end_series(const struct folder *folder, int status, const struct options *options) {
    const struct totals *totals = &folder->totals;
    FILE *to = options->json ? stderr : stdout;
    char whose[32], cuts[160], at_rest[48] = "";
    spell_drive(options->drive, whose);
    if (!options->no_ledger && !options->unit) snprintf(at_rest, sizeof at_rest, ", %" PRIu64 " lost at rest", totals->at_rest);
    snprintf(cuts, sizeof cuts, "%" PRIu64 " cuts%s, %" PRIu64 " with writes in flight (%" PRIu64 " in all), %" PRIu64 " cycles without a cut", totals->cuts, totals->trusted ? " by the word of --off" : "", totals->flying_cuts, totals->in_flight,
             totals->cycles - totals->cuts);
    if (!status) status = totals->faulty ? STATUS_FAULTS : totals->judged ? STATUS_SOUND : STATUS_NO_VERDICT;
    if (totals->faulty) fprintf(to, "%sfaults: %" PRIu64 " of %" PRIu64 " blocks checked%s, in %" PRIu64 " of %" PRIu64 " cycles; %s\n", whose, totals->faults, totals->checked, at_rest, totals->faulty, totals->cycles, cuts);
    else if (status == STATUS_SOUND) fprintf(to, "%ssound: %" PRIu64 " blocks checked, 0 faults%s; %s\n", whose, totals->checked, at_rest, cuts);
    else fprintf(to, "%s%s: %" PRIu64 " blocks checked, 0 faults%s; %s\n", whose, status == STATUS_NO_VERDICT ? "no verdict" : "not checked whole", totals->checked, at_rest, cuts);
    if (!totals->faulty && totals->flying_cuts) fprintf(to, "%s0 of %" PRIu64 " cuts with writes in flight: with 95 %% fewer than 3 in %" PRIu64 " such cuts lose a write\n", whose, totals->flying_cuts, totals->flying_cuts);
    if (fflush(to)) give_up_by_errno("standard output");
    return status;
}

int cycle_by_agent(const struct options *options, const struct job *job, int words) {
    static struct series series;
    int status = STATUS_SOUND;
    series = (struct series){.options = options, .job = job, .region = region_of(job, options->offset, options->stride)};
    series.folder = open_folder(options, job, &series.region, draws_orders(options, job), (struct cover){0});
    series.power = (struct power){.off = options->off, .on = options->on, .words = words};
    begin_ledger(&series);
    if (options->resume && !resume(&series, &status)) return end_series(&series.folder, status, options);
    const struct totals *totals = &series.folder.totals;
    while (!options->cycles || totals->cycles < options->cycles) {
        struct cycle *cycle = &series.cycle;
        *cycle = (struct cycle){.number = totals->cycles + 1};
        if (!has_unchecked(&series)) {
            write_cycle(&series);
            if (!cycle->tally.is_cut && !cycle->tally.failed) break; /* (it was stopped) */
        }
        give_power_back(&series.power);
        if (!check_cycle(&series, false)) return end_series(&series.folder, STATUS_FAILED, options);
        end_cycle(&series);
        if (cycle->tally.failed) return end_series(&series.folder, STATUS_FAILED, options);
        if (!may_go_on(&series.power, cycle->faults > 0, options->keep_going)) break;
    }
    return end_series(&series.folder, STATUS_SOUND, options);
}
