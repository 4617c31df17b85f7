#include "taken.h"

#include "clock.h"
#include "say.h"

#include <inttypes.h>
#include <string.h>
#include <unistd.h>

/* Where nobody cuts the power, that ends after so many milliseconds. */
enum { LONGEST = 300000 };

void take_state(struct lane *lane, const uint8_t state[STATE_BYTES]) {
    if (!lane->target || run_of_state(state) != lane->run || lane->orders < 0) return;
    pthread_mutex_lock(&lane->lock);
    memcpy(lane->state, state, STATE_BYTES);
    lane->is_taken = true;
    pthread_mutex_unlock(&lane->lock);
    close(lane->orders); /* (its executor reads what is there, and then the end) */
    lane->orders = -1;
}

void end_orders(struct lane *lane, uint64_t run, const struct executor *executor) {
    char words[160];
    pthread_mutex_lock(&lane->lock);
    bool is_due = lane->is_taken && run_of_state(lane->state) == run;
    if (is_due) {
        lane->is_taken = false;
        copy_in_flight(&lane->busy, executor, lane->state, STATE_BYTES);
        describe_busy(&lane->busy, words, sizeof words);
        say("job %" PRIu32 ": %s", lane->job, words);
        lane->busy.until = milliseconds() + LONGEST;
        start_busy(&lane->busy, 0);
    }
    pthread_mutex_unlock(&lane->lock);
}

void rest_lanes(struct lane *lanes, size_t count) {
    for (size_t at = 0; at < count; at++) {
        pthread_mutex_lock(&lanes[at].lock);
        lanes[at].is_taken = false;
        stop_busy(&lanes[at].busy);
        pthread_mutex_unlock(&lanes[at].lock);
    }
}
