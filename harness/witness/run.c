#include "course.h"

#include "bytes.h"
#include "clock.h"
#include "drive.h"
#include "say.h"
#include "signals.h"

#include <errno.h>
#include <fcntl.h>
#include <inttypes.h>
#include <poll.h>
#include <stdlib.h>
#include <string.h>
#include <sys/signalfd.h>
#include <unistd.h>

static void take_orders(struct course *course) {
    bool was_idle = course->outbox.open_count == 0;
    course->is_over = !read_orders(&course->outbox, course->drive.from);
    if (was_idle) course->last_heard = milliseconds();
    course->tally->ordered = course->outbox.ordered;
    if (course->tiling && !course->is_taken) open_more(course);
    if (course->tiling) end_tiles(course);
    if (course->unknown_since && !course->is_taken) hand_on(course);
}

static void pass_on(struct course *course) {
    if (!send_orders(&course->outbox, course->link->child.to)) note_cut(course, NULL);
}

/* Looks at the power before what became of writes is heard: one that fails may be the cut. */
static void look_at_cut(struct course *course) {
    bool was_off = course->power->is_off;
    look_at_power(course->power);
    if (course->power->is_off && !was_off) course->last_heard = milliseconds();
}

/* Where the drive alone is cut, and all is written before that: the last write is made again and again, since a
 * write that fails shows the cut. Where there was none, there is nothing to wait for behind the cut. */
static void keep_busy(struct course *course) {
    struct tiling *tiling = course->tiling;
    if (!tiling || !course->options->drive_only || !has_nothing_out(tiling)) return;
    if (tiling->last) order_again(&course->outbox, order_once_more(tiling));
    else if (course->power->off_ended) note_cut(course, NULL);
}

static void look_at_clock(struct course *course) {
    uint64_t now = milliseconds();
    bool waits = course->outbox.open_count || course->power->off_ended;
    if (course->unknown_since && !course->is_taken) hand_on(course);
    if (course->options->quiet && waits && now - course->last_heard >= course->options->quiet) note_cut(course, "nothing was heard any more: taken as the cut");
    if (now < course->next_line) return;
    course->next_line = now + 1000;
    if (course->tiling && course->tally->told == course->total) return;
    say("%" PRIu64 " of %" PRIu64 " writes, %" PRIu64 " a second", course->tally->told, course->total, course->tally->told - course->told_before);
    course->told_before = course->tally->told;
}

static void take_signal(struct course *course, int signals) {
    struct signalfd_siginfo info;
    if (read(signals, &info, sizeof info) == sizeof info) take(course);
}

/* Goes on until `drive` has said its last. */
static void follow(struct course *course, int signals) {
    enum { FROM_DRIVE, FROM_LINK, TO_LINK, SIGNALS, ALL };
    while (!course->is_over) {
        bool listens = !course->is_taken;
        struct pollfd polled[ALL] = {
            [FROM_DRIVE] = {course->drive.from, POLLIN, 0},
            [FROM_LINK] = {listens ? course->link->child.from : -1, POLLIN, 0},
            [TO_LINK] = {listens && has_orders(&course->outbox) ? course->link->child.to : -1, POLLOUT, 0},
            [SIGNALS] = {signals, POLLIN, 0},
        };
        if (poll(polled, ALL, 20) < 0 && errno != EINTR) give_up_by_errno("poll");
        look_at_cut(course);
        if (polled[FROM_LINK].revents) take_notices(course);
        if (polled[FROM_DRIVE].revents) take_orders(course);
        if (polled[TO_LINK].revents) pass_on(course);
        if (polled[SIGNALS].revents) take_signal(course, signals);
        keep_busy(course);
        look_at_clock(course);
    }
}

/* Awaits what cuts the power, where the link ended while it did. */
static void end_cut(struct course *course) {
    course->tally->was_early = course->tally->is_cut && !course->power->is_off;
    if (course->tally->was_early && course->power->off) say("the link ended by itself, before the cut");
    await_off(course->power);
}

/* From now on SIGINT, SIGTERM and SIGHUP are read here, and end nothing. */
static int open_signals(void) {
    const sigset_t set = stops();
    sigprocmask(SIG_BLOCK, &set, NULL);
    int fd = signalfd(-1, &set, SFD_CLOEXEC | SFD_NONBLOCK);
    if (fd < 0) give_up_by_errno("signals");
    return fd;
}

static void close_signals(int fd) {
    const sigset_t set = stops();
    close(fd);
    sigprocmask(SIG_UNBLOCK, &set, NULL);
}

uint64_t in_flight(const struct tally *tally) {
    return tally->ordered - tally->told - tally->failed;
}

struct hello hello_to_write(const struct options *options, const struct job *job, const struct region *region) {
    return (struct hello){.writes = true, .depth = job->depth, .region = *region, .is_local = options->local,
                          .run = draw_number(), .job = job->number, .text_length = job->text_length};
}

struct kept kept_by(const struct tally *tally, const struct job *job, const struct link *link) {
    struct kept kept = kept_of(tally->run, job, &link->hello.region);
    memcpy(kept.drive, link->welcome.drive, MAX_DRIVE), memcpy(kept.boot, link->welcome.boot, MAX_BOOT), memcpy(kept.way, link->welcome.way, MAX_WAY);
    kept.length = tally->state_length;
    memcpy(kept.state, tally->state, kept.length);
    return kept;
}

/* Writes by what `drive` orders, until it has said its last. */
static void write_by(struct course *course) {
    const struct job *job = course->job;
    struct tally *tally = course->tally;
    struct link *link = course->link;
    course->began = course->last_heard = milliseconds(), course->next_line = course->began + 1000;
    make_outbox(&course->outbox, link->hello.region.block_size, link->hello.depth, !link->hello.is_local, course->tiling);
    int signals = open_signals();
    fcntl(link->child.to, F_SETFL, O_NONBLOCK), fcntl(link->child.from, F_SETFL, O_NONBLOCK);
    course->drive = course->tiling ? start_tour(job) : start_drive("write", tally->run, job, CHILD_READS | CHILD_WRITES);
    if (course->tiling) open_more(course);
    follow(course, signals);
    int status = wait_for(&course->drive);
    tally->milliseconds = milliseconds() - course->began;
    end_cut(course);
    end_link(link);
    close_signals(signals);
    if (course->tiling) take_end(&course->outbox, status);
    else tally->state_length = take_state(&course->outbox, status, tally->state);
    free_outbox(&course->outbox);
}

struct tally run_job(const struct options *options, const struct job *job, struct link *link, struct power *power) {
    static struct course course;
    struct tally tally = {.run = link->hello.run};
    const uint64_t after = options->after && options->after < job->total ? options->after : job->total;
    /* (a job that is whole before its cut waits for that) */
    course = (struct course){.options = options, .job = job, .link = link, .tally = &tally, .power = power, .total = job->total, .goal = power->off ? UINT64_MAX : after};
    write_by(&course);
    return tally;
}

struct tally run_tiles(const struct options *options, struct tiling *tiling, struct link *link, struct power *power) {
    static struct course course;
    struct tally tally = {0};
    const struct tiles *tiles = tiling->tiles;
    const uint64_t left = tiles->count - tiles->next + tiles->again_count;
    course = (struct course){.options = options, .job = tiling->job, .tiling = tiling, .link = link, .tally = &tally, .power = power, .total = left * tiling->job->total, .goal = UINT64_MAX};
    write_by(&course);
    return tally;
}
