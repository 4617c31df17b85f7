#include "power.h"

#include "clock.h"
#include "say.h"

#include <errno.h>
#include <stddef.h>
#include <sys/socket.h>

static const char NOT_CUT[] = "it didn't cut the power", NOT_BACK[] = "it didn't give the power back";

bool say_word(int to, enum word word, uint64_t number) {
    const struct word_said said = {word, number};
    return send(to, &said, sizeof said, MSG_NOSIGNAL) == sizeof said;
}

bool hear_word(int from, bool waits, struct word_said *said) {
    ssize_t length;
    do length = recv(from, said, sizeof *said, waits ? 0 : MSG_DONTWAIT);
    while (length < 0 && errno == EINTR);
    return length == sizeof *said;
}

/* Waits for this word of who runs the commands for all. What that says of a cut may come late, to a
 * series that has its state already. */
static uint64_t await_word(const struct power *power, enum word word) {
    struct word_said said;
    do {
        if (!hear_word(power->words, true, &said)) give_up("the power", "who cuts it for all drives has ended");
    } while (said.word != word);
    return said.number;
}

static void note_off_ended(struct power *power, uint64_t status) {
    if (status) give_up(power->off, NOT_CUT);
    power->off_ended = milliseconds();
}

uint64_t begin_writing(struct power *power, uint64_t cut_after) {
    power->is_off = false, power->off_ended = 0;
    if (power->words < 0) {
        power->cut_at = milliseconds() + cut_after;
        return cut_after;
    }
    say_word(power->words, READY, cut_after);
    return await_word(power, WRITE_NOW);
}

static void take_words(struct power *power) {
    struct word_said said;
    while (hear_word(power->words, false, &said)) {
        if (said.word == OFF_BEGINS) power->is_off = true;
        if (said.word == OFF_ENDED) note_off_ended(power, said.number);
    }
}

void look_at_power(struct power *power) {
    int status;
    if (power->words >= 0) take_words(power);
    if (power->cut_at && milliseconds() >= power->cut_at) {
        power->child = start_command(power->off, CHILD_APART);
        power->is_off = true, power->cut_at = 0;
    }
    if (power->child.pid && has_ended(&power->child, &status)) {
        power->child.pid = 0;
        note_off_ended(power, (uint64_t)status);
    }
}

void await_off(struct power *power) {
    power->cut_at = 0;
    if (power->words >= 0 && power->is_off && !power->off_ended) note_off_ended(power, await_word(power, OFF_ENDED));
    if (power->child.pid) {
        uint64_t status = (uint64_t)wait_for(&power->child);
        power->child.pid = 0;
        note_off_ended(power, status);
    }
}

void give_power_back(struct power *power) {
    if (power->words >= 0) say_word(power->words, KEPT, 0);
    if (power->words >= 0 ? await_word(power, POWER_ON) != 0 : run_command(power->on, NULL, 0) != 0) give_up(power->on, NOT_BACK);
}

bool may_go_on(const struct power *power, bool has_faults, bool keeps_going) {
    if (power->words < 0) return keeps_going || !has_faults;
    say_word(power->words, CHECKED, has_faults);
    return await_word(power, GO_ON) != 0;
}
