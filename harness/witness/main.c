/* Runs on a machine that keeps its power: has an agent write and read, and remembers what was told
 * as done. docs/DRIVE.md is the manual. */
#include "commands.h"

#include "map.h"
#include "run.h"
#include "say.h"
#include "seeded.h"
#include "several.h"
#include "state.h"
#include "verdict.h"

#include <inttypes.h>
#include <signal.h>
#include <stdio.h>
#include <string.h>

int write_by_agent(const struct options *options, const struct job *job) {
    const struct region region = region_of(job, options->offset, options->stride);
    const struct hello hello = hello_to_write(options, job, &region);
    refuse_place(options->place, options->job_file, NULL);
    struct link link = open_link(options->link, &hello, job, options->wait);
    tell_welcome(&link);
    put_aside(options->place);
    struct power none = {.words = -1};
    struct tally tally = run_job(options, job, &link, &none);
    static struct kept kept;
    kept = kept_by(&tally, job, &link);
    keep_state(options->place, &kept);
    printf("run %" PRIu64 ": %" PRIu64 " ordered, %" PRIu64 " told, %" PRIu64 " in flight%s\n", tally.run, tally.ordered, tally.told, in_flight(&tally), tally.is_cut ? " at the cut" : "");
    if (tally.failed) say("a write failed, and the state was taken there: %s", options->place);
    return tally.failed ? STATUS_FAILED : STATUS_SOUND;
}

int check_by_agent(const struct options *options, const struct job *given) {
    static struct kept kept;
    static struct map map;
    struct welcome welcome;
    struct ledger ledger = {0};
    const char *state = options->lost ? NULL : options->place;
    if (options->lost) kept = kept_of(draw_number(), given, &(struct region){0});
    else read_kept(state, &kept);
    const struct job job = options->lost ? *given : job_to_check(state, &kept, given);
    const struct region region = options->lost ? region_of(&job, options->offset, options->stride) : region_to_check(state, &kept, &job, options->offset, options->stride);
    if (options->ledger) {
        refuse_ledger_place(options->ledger, options->job_file, state, NULL);
        ledger = ledger_to_check(options->ledger, &region, options->other_drive ? "" : kept.drive, state, &kept);
        if (options->lost) memcpy(kept.drive, ledger.drive, MAX_DRIVE);
    }
    const struct basis basis = basis_of(&kept, options->ledger ? &ledger : NULL, options->lost);
    check_by_link(options, &job, &region, &basis, &map, &welcome);
    print_map(&map, options->command == MAP);
    int status = tell_verdict(&map, options->place, &kept, welcome.boot);
    dump_by_link(options, &job, &region, &kept, options->place, &map);
    if (options->ledger) keep_ledger_of(&map, *welcome.drive ? welcome.drive : kept.drive);
    free_ledger(&ledger);
    free_map(&map);
    return status;
}

int main(int count, char **words) {
    speak_as("drive-witness");
    const struct options options = read_options(count, words);
    signal(SIGPIPE, SIG_IGN);
    struct job job = read_job(options.job_file, options.job);
    job.unit = options.unit;
    switch (options.command) {
    case WRITE: return write_by_agent(&options, &job);
    case CHECK:
    case MAP: return check_by_agent(&options, &job);
    case TOUR: return tour_by_agent(&options, &job);
    default: return options.links[1] ? cycle_by_agents(&options, &job) : cycle_by_agent(&options, &job, -1);
    }
}
