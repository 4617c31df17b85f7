#include "story.h"

#include "envelope.h"
#include "record.h"
#include "say.h"

#include <inttypes.h>

/* The kinds of a server's frames that tell something, and how long each is: docs/SCRIPTS.md. */
enum { KIND_AT = 3, STARTED = 4, STATE = 6, NO_STATE = 7, STOPPED = 10, WANT_STATE = 12, REPORT = 15, REFUSED = 16 };
enum { RUN_LENGTH = FRAME_HEAD + 8, STATE_LENGTH = FRAME_HEAD + 4 + STATE_BYTES, NO_STATE_LENGTH = FRAME_HEAD + 16, WANT_LENGTH = FRAME_HEAD + 20, REPORT_LENGTH = FRAME_HEAD + 41, REFUSED_LENGTH = FRAME_HEAD + 34 };

static bool is_kind(const uint8_t *frame, size_t length, uint8_t kind, size_t due) {
    return length >= due && frame[KIND_AT] == kind;
}

const uint8_t *state_in_frame(const uint8_t *frame, size_t length) {
    const uint8_t *state = frame + FRAME_HEAD + 4;
    return is_kind(frame, length, STATE, STATE_LENGTH) && is_state(state, length - FRAME_HEAD - 4) ? state : NULL;
}

/* Whether this is new; from now on it isn't. */
static bool is_new(uint64_t *last, uint64_t number) {
    bool is_other = *last != number;
    *last = number;
    return is_other;
}

static void tell_state(struct story *story, const uint8_t *state) {
    uint64_t run = run_of_state(state), issued = issued_in(state), done = done_in(state);
    uint32_t job = job_of_state(state);
    if (job < MOST_JOBS && is_new(&story->taken[job], run)) say("the state of run %" PRIu64 " job %" PRIu32 " is taken: %" PRIu64 " ordered, %" PRIu64 " done, %" PRIu64 " in flight", run, job, issued, done, issued - done);
}

static void tell_report(struct story *story, const uint8_t *body) {
    static const char *const ends[] = {"", ", and ended at a fault", ", and ended at a block that can't be read"};
    uint64_t run = get_64(body), attempt = get_64(body + 8);
    uint32_t job = get_32(body + 16);
    if (job < MOST_JOBS && is_new(&story->reported[job], attempt)) say("the check of run %" PRIu64 " job %" PRIu32 " has ended: %" PRIu32 " checked, %" PRIu32 " faults%s", run, job, get_32(body + 29), get_32(body + 33), body[24] < 3 ? ends[body[24]] : "");
}

static const char *name_of(uint8_t asked) {
    return asked == 1 ? "the jobs" : asked == 3 ? "the start" : asked == 5 ? "the trigger" : asked == 9 ? "the stop" : "the check";
}

static void tell_refusal(struct story *story, const uint8_t *body) {
    static const char *const reasons[] = {"Old: a later number came before", "Busy: writes are open", "NoJobs: it has no such jobs", "Gone: the run was stopped, or lost by a restart", "Overwritten: a later run has written there", "Unknown: it never had that run", "BadJobs: the job file is refused", "Misfit: the state doesn't fit the job"};
    uint8_t asked = body[0], reason = body[1];
    uint64_t run = get_64(body + 10), attempt = get_64(body + 18);
    unsigned refusal = asked * 256u + reason;
    bool is_other = is_new(&story->refused, attempt ? attempt : run);
    if (!is_other && story->refusal == refusal) return;
    story->refusal = refusal;
    say("%s of run %" PRIu64 " is refused: %u %s", name_of(asked), run, reason, reason >= 60 && reason < 68 ? reasons[reason - 60] : "");
}

void tell_frame(struct story *story, const uint8_t *frame, size_t length) {
    const uint8_t *body = frame + FRAME_HEAD, *state = state_in_frame(frame, length);
    if (state) tell_state(story, state);
    if (is_kind(frame, length, STARTED, RUN_LENGTH) && is_new(&story->begun, get_64(body))) say("run %" PRIu64 " is begun", get_64(body));
    if (is_kind(frame, length, STOPPED, RUN_LENGTH) && is_new(&story->stopped, get_64(body))) say("run %" PRIu64 " is stopped", get_64(body));
    if (is_kind(frame, length, NO_STATE, NO_STATE_LENGTH)) {
        uint32_t job = get_32(body + 8);
        if (job < MOST_JOBS && is_new(&story->taken[job], get_64(body))) say("run %" PRIu64 " job %" PRIu32 " has ended, and no state of it is kept", get_64(body), job);
    }
    if (is_kind(frame, length, WANT_STATE, WANT_LENGTH) && is_new(&story->checked, get_64(body + 8))) say("a check of run %" PRIu64 " is begun", get_64(body));
    if (is_kind(frame, length, REPORT, REPORT_LENGTH)) tell_report(story, body);
    if (is_kind(frame, length, REFUSED, REFUSED_LENGTH)) tell_refusal(story, body);
}
