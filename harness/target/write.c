#include "commands.h"

#include "busy.h"
#include "drive.h"
#include "say.h"
#include "state.h"
#include "watch.h"

#include <inttypes.h>
#include <libgen.h>
#include <limits.h>
#include <stdio.h>
#include <string.h>
#include <sys/stat.h>
#include <unistd.h>

/* Says so where keeping the state makes the tested drive keep what lies in its cache: then a cut
 * finds less to lose. */
static void warn_of_one_drive(const struct options *options, const struct target *target) {
    char folder[PATH_MAX];
    struct stat is;
    snprintf(folder, sizeof folder, "%s", options->state);
    if (options->cut && stat(dirname(folder), &is) == 0 && is.st_dev == target->device)
        say("%s lies on the drive that is tested: keeping it empties that drive's cache before the cut", options->state);
}

/* Refuses what would take the state at once. */
static void refuse_old_trigger(const char *trigger) {
    if (trigger && access(trigger, F_OK) == 0) give_up(trigger, "the trigger's file is there already: remove it first");
}

/* Refuses a state in the folder of the files: the next run would find what is none of its own. */
static void refuse_within(const struct options *options) {
    char folder[PATH_MAX];
    struct stat is, its;
    snprintf(folder, sizeof folder, "%s", options->state);
    if (stat(dirname(folder), &is) || stat(options->opening.name, &its)) return;
    if (is.st_dev == its.st_dev && is.st_ino == its.st_ino) give_up(options->state, "it lies in the folder of the files: no state is kept there");
}

/* Has the state kept elsewhere, and has the power cut, where that is asked for. */
static void keep_and_cut(const struct options *options, struct kept *kept) {
    uint8_t bytes[MAX_KEPT];
    size_t length = spell_kept(kept, bytes);
    if (options->keep && run_command(options->keep, bytes, length)) give_up(options->keep, "it didn't keep the state");
    if (options->cut && run_command(options->cut, NULL, 0)) give_up(options->cut, "it didn't cut the power");
}

/* Who gives the orders, who carries them out, and what is done behind the last one. */
struct run {
    struct drive drive;
    struct executor executor;
    struct busy busy;
};

static void tell_these(void *run, const struct ending *endings, size_t count) {
    tell_endings(&((struct run *)run)->drive, endings, count);
}

/* Notes the state. The writes that it has in flight are copied while the executor still has them. */
static void tell_last(void *given, const void *bytes, size_t length) {
    struct run *run = given;
    copy_in_flight(&run->busy, &run->executor, bytes, length);
    note_last(&run->drive, bytes, length);
}

/* Has the drive stay busy until it is cut, where that is asked for. */
static void stay_busy(const struct options *options, struct busy *busy) {
    char words[160];
    if (!options->cut && !options->keep) return;
    describe_busy(busy, words, sizeof words);
    say("%s", words);
    start_busy(busy, options->queue);
}

static void *carry_all_out(void *executor) {
    carry_out(executor);
    return NULL;
}

/* Starts the thread that carries out the orders; its writes may be out for longer than anyone
 * waits. */
static void start_executor(struct executor *executor) {
    pthread_t thread;
    int error = pthread_create(&thread, NULL, carry_all_out, executor);
    if (error) give_up("threads", strerror(error));
    pthread_detach(thread);
}

int write_target(const struct options *options, const struct job *job) {
    static struct run run; /* (its threads may outlive this call) */
    static struct target target;
    static struct watch watch;
    struct drive *drive = &run.drive;
    struct region region = region_of(job, options->offset, options->stride);
    refuse_old_trigger(options->trigger);
    refuse_place(options->state, options->job_file, options->opening.name);
    if (options->opening.files) refuse_within(options);
    struct opening opening = options->opening;
    char way[MAX_WAY];
    enum by by = settle_way(&options->way, &opening, way);
    target = open_to_write(&opening, &region);
    warn_of_one_drive(options, &target);
    static struct kept kept;
    kept = kept_of(draw_number(), job, &region);
    tell_drive(&target, kept.drive), tell_boot(kept.boot), memcpy(kept.way, way, MAX_WAY);
    if (target.unit.most) say("the system tells of atomic writes to it, of %" PRIu64 " to %" PRIu64 " bytes", target.unit.least, target.unit.most);
    say("writes rest on this: %s", way);
    put_aside(options->state);
    hold_signals();
    open_drive(drive, kept.run, job, options->after, way_of_orders(job->depth, options->opening.cached));
    run.executor = (struct executor){.target = &target, .region = region, .depth = job->depth, .flush = options->way.flush, .queue = options->queue, .by = by, .may_share = true, .orders = drive->child.from, .whose = &run,
                                     .tell = tell_these, .tell_last = tell_last};
    watch = (struct watch){drive, job, options->trigger};
    start_executor(&run.executor);
    start_watch(&watch);
    await_state(drive); /* and not the writes that are still out: they are to be cut */
    kept.length = drive->last_length;
    memcpy(kept.state, drive->last, kept.length);
    stay_busy(options, &run.busy);
    keep_state(options->state, &kept);
    let_signals_through();
    printf("run %" PRIu64 ": %" PRIu64 " writes were done\n", kept.run, drive->done);
    fflush(stdout);
    keep_and_cut(options, &kept);
    end_busy(&run.busy); /* (no write begins from now on, and the program ends behind those that have begun) */
    if (drive->failed) say("a write failed, and the state was taken there: %s", options->state);
    return drive->failed ? STATUS_FAILED : STATUS_SOUND;
}
