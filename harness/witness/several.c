#include "several.h"

#include "clock.h"
#include "commands.h"
#include "power.h"
#include "say.h"
#include "signals.h"

#include <errno.h>
#include <limits.h>
#include <poll.h>
#include <stdio.h>
#include <string.h>
#include <sys/prctl.h>
#include <sys/signalfd.h>
#include <sys/socket.h>
#include <sys/stat.h>
#include <sys/wait.h>
#include <unistd.h>

/* What a series does, as far as is known here. */
enum stage { BEGINS, IS_READY, WRITES, HAS_KEPT, HAS_CHECKED, HAS_ENDED };

struct series {
    pid_t pid;
    int words; /* the way to it */
    enum stage stage;
    uint64_t cut_after; /* as it has drawn it */
    bool has_faults;    /* in the cycle that it has checked last */
    int status;         /* with which it has ended */
};

struct all {
    const struct options *options;
    size_t count;
    struct series series[MOST_TEXTS];
    int signals;
};

/* The process of one series: it has the rest of the program's life. */
static _Noreturn void become_series(const struct options *given, const struct job *job, const struct all *all, size_t at, int words) {
    static char folder[PATH_MAX], name[32];
    struct options options = *given;
    const sigset_t set = stops();
    prctl(PR_SET_PDEATHSIG, SIGTERM);
    setpgid(0, 0); /* (a terminal's signals come by the one that has started it) */
    for (size_t other = 0; other < at; other++) close(all->series[other].words);
    snprintf(name, sizeof name, "drive-witness %zu", at + 1);
    speak_as(name);
    if (snprintf(folder, sizeof folder, "%s/%zu", given->place, at + 1) >= PATH_MAX) give_up(given->place, strerror(ENAMETOOLONG));
    options.place = folder, options.link = given->links[at], options.drive = at + 1;
    sigprocmask(SIG_UNBLOCK, &set, NULL);
    int status = cycle_by_agent(&options, job, words);
    fflush(NULL);
    _exit(status);
}

static void start_series(struct all *all, const struct job *job, size_t at) {
    int ends[2];
    if (socketpair(AF_UNIX, SOCK_SEQPACKET | SOCK_CLOEXEC, 0, ends)) give_up_by_errno("socketpair");
    pid_t pid = fork();
    if (pid < 0) give_up_by_errno("fork");
    if (pid == 0) {
        close(ends[0]), close(all->signals);
        become_series(all->options, job, all, at, ends[1]);
    }
    close(ends[1]);
    all->series[at] = (struct series){.pid = pid, .words = ends[0]};
    all->count = at + 1;
}

/* A series has ended, and says why itself, but where a signal ended it. */
static void note_end(struct series *series, size_t number) {
    int how;
    while (waitpid(series->pid, &how, 0) < 0 && errno == EINTR) {}
    if (WIFSIGNALED(how)) say("the series of drive %zu was ended by signal %d", number, WTERMSIG(how));
    series->status = WIFEXITED(how) ? WEXITSTATUS(how) : STATUS_FAILED;
    series->stage = HAS_ENDED;
    close(series->words);
    series->words = -1;
}

static void take_word(struct series *series, size_t number) {
    struct word_said said;
    if (!hear_word(series->words, true, &said)) note_end(series, number);
    else if (said.word == READY) series->stage = IS_READY, series->cut_after = said.number;
    else if (said.word == KEPT) series->stage = HAS_KEPT;
    else if (said.word == CHECKED) series->stage = HAS_CHECKED, series->has_faults = said.number != 0;
}

/* A signal goes on to each series, which takes its state and ends. */
static void pass_signal_on(const struct all *all) {
    struct signalfd_siginfo info;
    if (read(all->signals, &info, sizeof info) != sizeof info) return;
    for (size_t at = 0; at < all->count; at++)
        if (all->series[at].stage != HAS_ENDED) kill(all->series[at].pid, (int)info.ssi_signo);
}

/* Hears what comes next, for so many milliseconds at most. */
static void hear_all(struct all *all, int at_most) {
    struct pollfd polled[MOST_TEXTS + 1];
    for (size_t at = 0; at < all->count; at++) polled[at] = (struct pollfd){all->series[at].words, POLLIN, 0};
    polled[all->count] = (struct pollfd){all->signals, POLLIN, 0};
    if (poll(polled, all->count + 1, at_most) < 0 && errno != EINTR) give_up_by_errno("poll");
    for (size_t at = 0; at < all->count; at++)
        if (polled[at].revents) take_word(&all->series[at], at + 1);
    if (polled[all->count].revents) pass_signal_on(all);
}

static bool is_any(const struct all *all, enum stage stage) {
    for (size_t at = 0; at < all->count; at++)
        if (all->series[at].stage == stage) return true;
    return false;
}

/* Waits while one of them is in this stage. */
static void await_all(struct all *all, enum stage stage) {
    while (is_any(all, stage)) hear_all(all, -1);
}

/* Says a word to each that is in this stage, with which that may become another one. */
static void tell_all(struct all *all, enum stage stage, enum word word, uint64_t number, enum stage next) {
    for (size_t at = 0; at < all->count; at++) {
        struct series *series = &all->series[at];
        if (series->stage != stage) continue;
        say_word(series->words, word, number);
        series->stage = next;
    }
}

/* So long it is to the cut: as the first of them that writes has drawn it. */
static uint64_t cut_after_of(const struct all *all) {
    size_t at = 0;
    while (at + 1 < all->count && all->series[at].stage != IS_READY) at++;
    return all->series[at].cut_after;
}

/* All that are ready write, until the power is cut for all; or until none writes any more. */
static void write_until_cut(struct all *all) {
    const uint64_t cut_after = cut_after_of(all), cut_at = milliseconds() + cut_after;
    struct child off = {0};
    bool has_begun = false;
    int status;
    tell_all(all, IS_READY, WRITE_NOW, cut_after, WRITES);
    while (is_any(all, WRITES)) {
        if (!has_begun && milliseconds() >= cut_at) {
            tell_all(all, WRITES, OFF_BEGINS, 0, WRITES);
            off = start_command(all->options->off, CHILD_APART);
            has_begun = true;
        }
        if (off.pid && has_ended(&off, &status)) {
            off.pid = 0;
            tell_all(all, WRITES, OFF_ENDED, (uint64_t)status, WRITES);
        }
        hear_all(all, 10);
    }
    if (off.pid) wait_for(&off);
}

/* One cycle of all: of a series that had kept a state before, only its check. */
static void run_cycle(struct all *all) {
    await_all(all, BEGINS);
    write_until_cut(all);
    if (!is_any(all, HAS_KEPT)) return;
    int status = run_command(all->options->on, NULL, 0);
    tell_all(all, HAS_KEPT, POWER_ON, (uint64_t)status, HAS_KEPT);
    await_all(all, HAS_KEPT);
}

/* Whether another cycle may begin: not where a drive had faults, or its series failed, unless the
 * others are to go on. */
static bool may_all_go_on(const struct all *all) {
    bool is_good = true;
    for (size_t at = 0; at < all->count; at++) {
        const struct series *series = &all->series[at];
        const bool has_failed = series->stage == HAS_ENDED && (series->status == STATUS_FAULTS || series->status == STATUS_FAILED);
        is_good = is_good && !has_failed && !series->has_faults;
    }
    return is_good || all->options->keep_going;
}

/* Prints what each series came to, worst first. */
static int end_all(const struct all *all) {
    static const struct { int status; const char *word; } words[] = {{STATUS_FAULTS, "faults"}, {STATUS_FAILED, "not checked whole"}, {STATUS_NO_VERDICT, "no verdict"}, {STATUS_SOUND, "sound"}};
    FILE *to = all->options->json ? stderr : stdout;
    int worst = -1;
    for (size_t of = 0; of < sizeof words / sizeof *words; of++) {
        bool is_first = true;
        for (size_t at = 0; at < all->count; at++) {
            if (all->series[at].status != words[of].status) continue;
            if (is_first) fprintf(to, "%s%s: drive", worst < 0 ? "" : "; ", words[of].word);
            fprintf(to, "%s %zu", is_first ? "" : ",", at + 1);
            worst = worst < 0 ? words[of].status : worst, is_first = false;
        }
    }
    fprintf(to, "\n");
    if (fflush(to)) give_up_by_errno("standard output");
    return worst;
}

int cycle_by_agents(const struct options *options, const struct job *job) {
    static struct all all;
    const sigset_t set = stops();
    all.options = options;
    if (mkdir(options->place, 0755) && errno != EEXIST) give_up_by_errno(options->place);
    sigprocmask(SIG_BLOCK, &set, NULL);
    all.signals = signalfd(-1, &set, SFD_CLOEXEC | SFD_NONBLOCK);
    if (all.signals < 0) give_up_by_errno("signals");
    if (options->resume && run_command(options->on, NULL, 0)) give_up(options->on, "it didn't give the power back");
    for (size_t at = 0; at < MOST_TEXTS && options->links[at]; at++) start_series(&all, job, at);
    do {
        run_cycle(&all);
        bool goes_on = may_all_go_on(&all);
        tell_all(&all, HAS_CHECKED, GO_ON, goes_on, goes_on ? BEGINS : HAS_CHECKED);
        if (!goes_on) await_all(&all, HAS_CHECKED);
    } while (is_any(&all, BEGINS));
    return end_all(&all);
}
