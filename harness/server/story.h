/* What a server says of its runs and checks, by the frames that its node sends: a line as each begins and
 * ends, for who reads the server's log. */
#ifndef STORY_H
#define STORY_H

#include "flight.h"
#include "options.h"

/* What was said last: a frame is sent again until it is answered. */
struct story {
    uint64_t begun, stopped, checked; /* runs, and an attempt */
    uint64_t taken[MOST_JOBS], reported[MOST_JOBS]; /* runs, and attempts, of the jobs */
    uint64_t refused; /* a run or an attempt */
    unsigned refusal;
};

/* Says what a frame tells, where that wasn't said. */
void tell_frame(struct story *story, const uint8_t *frame, size_t length);

/* The state that a frame carries, or NULL. */
const uint8_t *state_in_frame(const uint8_t *frame, size_t length);

#endif
