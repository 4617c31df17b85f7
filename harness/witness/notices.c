#include "course.h"

#include "bytes.h"
#include "clock.h"
#include "say.h"

#include <errno.h>
#include <inttypes.h>
#include <string.h>
#include <unistd.h>

/* So long a notice may be of a write that `drive` hasn't ordered yet: milliseconds. */
enum { ORDER_COMES = 5000 };

/* So long notices may still come once the command that cuts has ended: milliseconds. */
enum { STILL_THERE = 5000 };

void take(struct course *course) {
    uint8_t words[MOST_OPEN * TILE_WORD];
    if (course->is_taken) return;
    course->is_taken = true;
    if (!course->tiling) put_notice(words, TAKE, 0);
    write_all(course->drive.to, words, course->tiling ? take_tiles(course->tiling, words) : NOTICE_BYTES);
    if (course->tiling) end_tiles(course);
}

void end_tiles(struct course *course) {
    if (course->is_taken && !course->tiling->count) end_input(&course->drive);
}

void open_more(struct course *course) {
    uint8_t words[MOST_OPEN * TILE_WORD];
    write_all(course->drive.to, words, begin_tiles(course->tiling, words));
}

/* Spells what `drive` is told of a write that has ended, and returns how long that is. */
static size_t spell_end(struct course *course, struct told told, uint8_t words[MOST_WORDS]) {
    if (course->tiling) return spell_end_of_write(course->tiling, told, words);
    put_notice(words, told.kind, told.write);
    return NOTICE_BYTES;
}

void note_cut(struct course *course, const char *why) {
    if (course->is_taken) return;
    if (why) say("%s", why);
    course->tally->is_cut = true;
    take(course);
}

/* Whether a notice is of an open write, and tells what became of it; then it is counted, and open no
 * more. One that failed once the power was to be cut tells that it is. */
static bool count_notice(struct course *course, struct told told) {
    uint64_t block;
    if ((told.kind != DONE && told.kind != FAILED) || !close_order(&course->outbox, told.write, &block)) return false;
    if (block != told.block) give_up("the link", "what the agent writes isn't what is ordered here: is its `drive` another one?");
    if (told.kind == FAILED && course->power->is_off) {
        course->tally->has_fallen = true; /* (it may have been made: it stays in flight) */
        return false;
    }
    const bool is_counted = !course->tiling || !is_once_more(course->tiling, told.write);
    course->tally->told += is_counted && told.kind == DONE;
    course->tally->failed += told.kind == FAILED;
    if (told.kind == FAILED) say("write %" PRIu64 " to block %" PRIu64 " failed at the agent", told.write, told.block);
    return true;
}

/* A notice is of no open write. An agent's own `drive` may be ahead of the one here: then the order
 * comes. Else no agent said this: it is what a line carries while its power goes. */
static void note_unknown(struct course *course) {
    if (!course->unknown_since) course->unknown_since = milliseconds();
    if (!course->link->hello.is_local || milliseconds() - course->unknown_since >= ORDER_COMES) note_cut(course, "the link said what no agent says: taken as the cut");
}

void hand_on(struct course *course) {
    uint8_t notices[NOTICES * MOST_WORDS];
    size_t at = 0, length = 0; /* of what was heard, and of what `drive` is told of it */
    bool is_known = true, is_last = false;
    while (is_known && !is_last && at + TOLD_BYTES <= course->heard_length) {
        const struct told told = read_told(course->heard + at);
        is_known = count_notice(course, told);
        if (!is_known) break;
        at += TOLD_BYTES, length += spell_end(course, told, notices + length);
        is_last = course->tally->failed || course->tally->told == course->goal;
    }
    write_all(course->drive.to, notices, length);
    /* (no more than the job's depth are on their way back, so the pipe has room for them) */
    if (course->link->hello.is_local && at) write_all(course->link->child.to, course->heard, at);
    memmove(course->heard, course->heard + at, course->heard_length - at);
    course->heard_length -= at;
    if (course->tally->has_fallen) note_cut(course, "a write failed once the power was to be cut: taken as the cut");
    if (is_known) course->unknown_since = 0;
    if (is_last) take(course);
    else if (!is_known) note_unknown(course);
}

void take_notices(struct course *course) {
    ssize_t count = read(course->link->child.from, course->heard + course->heard_length, sizeof course->heard - course->heard_length);
    if (count < 0 && (errno == EAGAIN || errno == EINTR)) return;
    if (count <= 0) {
        note_cut(course, NULL);
        return;
    }
    course->last_heard = milliseconds();
    const uint64_t told = course->tally->told;
    course->heard_length += (size_t)count;
    hand_on(course);
    const uint64_t off_ended = course->power->off_ended;
    bool is_late = off_ended && course->last_heard - off_ended > STILL_THERE;
    if (is_late && course->tally->told > told) give_up(course->options->off, "the power is still there: writes are told as done seconds after this has ended");
}
