#include "watch.h"

#include "say.h"
#include "signals.h"

#include <inttypes.h>
#include <string.h>
#include <time.h>
#include <unistd.h>

/* It looks a hundred times a second. */
enum { NANOSECONDS = 10000000, LOOKS = 100 };

void hold_signals(void) {
    sigset_t set = stops();
    pthread_sigmask(SIG_BLOCK, &set, NULL);
}

void let_signals_through(void) {
    sigset_t set = stops();
    pthread_sigmask(SIG_UNBLOCK, &set, NULL);
}

static void *look_out(void *given) {
    const struct watch *watch = given;
    const sigset_t set = stops();
    uint64_t before = 0;
    bool is_taken = false;
    for (int look = 1; !is_taken; look++) {
        if (sigtimedwait(&set, NULL, &(struct timespec){0, NANOSECONDS}) > 0) tell_take(watch->drive);
        if (watch->trigger && access(watch->trigger, F_OK) == 0) tell_take(watch->drive);
        uint64_t now = done_by_now(watch->drive, &is_taken);
        if (look % LOOKS) continue;
        say("%" PRIu64 " of %" PRIu64 " writes, %" PRIu64 " a second", now, watch->job->total, now - before);
        before = now;
    }
    return NULL;
}

void start_watch(const struct watch *watch) {
    pthread_t thread;
    int error = pthread_create(&thread, NULL, look_out, (void *)(uintptr_t)watch);
    if (error) give_up("threads", strerror(error));
    pthread_detach(thread);
}
