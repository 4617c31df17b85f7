"""Makes outputs whose verify states are wrong: each kind is false by one claim.

A state has 136 bytes. Its settings begin at byte 20, how many writes were issued stands at 56, the
generator's place at 64, and the marks of the counted writes at 104.
"""

from judging.draft import Draft, spell, with_byte, with_number

SETTINGS, ISSUED, PLACE, MARKS = 20, 56, 64, 104


def flipped(spelling, place):
    """Bytes with another lowest bit at a place."""
    return with_byte(spelling, place, spelling[place] ^ 1)


def marked(state, write):
    """A state that counts this write where it didn't, and doesn't where it did."""
    word, bit = divmod(write - max(0, state.issued - state.settings.window), 64)
    place = MARKS + 8 * word + 7 - bit // 8
    return with_byte(state.spelling, place, state.spelling[place] ^ 1 << bit % 8)


def another_state_in_a_later_frame(case):
    """A later frame has another place of the generator than the first."""
    for at, number, frame in case.frames("State", "Saved", "Copy"):
        if case.story.seen[frame.state.key][1] is not frame:
            data = case.read.frames[number]
            yield Draft(case).frame(number, flipped(data, len(data) - 136 + PLACE))


def another_state_shown(case):
    """The client's note shows another state than the frames have."""
    for at, key, spelling in case.read.changes:
        if spelling:
            yield Draft(case).hide(at, key).show(at, key, flipped(spelling, PLACE))


def another_place_kept(case):
    """The client's note shows a state with another issued write behind its restart."""
    restarts = set(case.steps("restart", "client"))
    for at, key, spelling in case.read.changes:
        if spelling and at in restarts:
            yield Draft(case).hide(at, key).show(at, key, flipped(spelling, PLACE + 31))


def taken_without_a_trigger(case):
    """The Trigger with which a state is taken is a Stop."""
    for key, at, _ in case.takings():
        number = int(case.story.steps[at].words[1])
        stop = spell("Stop", "client", str(key[1]), key[0])
        yield Draft(case).frame(number, stop)


def taken_without_a_start(case):
    """The Start of the run of a state is a Stop."""
    for key, at, _ in case.takings():
        number = int(case.story.steps[case.start_of(key, at)].words[1])
        yield Draft(case).frame(number, spell("Stop", "client", str(key[1]), key[0]))


def taken_before_started(case):
    """No server says that the run of a state has started."""
    for key, _, _ in case.takings():
        draft = Draft(case)
        for _, number, frame in case.frames("Started"):
            if frame.fields["run"] == key[0]:
                draft.frame(number, spell("Stopped", frame.source, "client", key[0]))
        yield draft


def taken_by_another_server(case):
    """The first State of a key is sent by another server."""
    for key, at, frame in case.takings():
        number = next(it for it in case.sent[at] if case.story.frames[it] is frame)
        yield Draft(case).frame(number, spell(
            "State", str((key[1] + 1) % 8), "client", frame.fields["jobs"],
            rest=frame.state.spelling))


def seen_first_in_a_copy(case):
    """The first frame with a state is a Copy."""
    for key, at, frame in case.takings():
        number = next(it for it in case.sent[at] if case.story.frames[it] is frame)
        yield Draft(case).frame(number, spell("Copy", str(key[1]), "client",
                                              rest=frame.state.spelling))


def shown_before_it_is_taken(case):
    """The client's note shows a state that was in no frame."""
    for key, at, frame in case.takings():
        yield Draft(case).show(at - 1, key, frame.state.spelling)


def counts_one_more(case):
    """A state counts a write that wasn't told done."""
    for key, _, frame in case.takings():
        for write in sorted(set(range(frame.state.issued)) - frame.state.counted)[:1]:
            yield Draft(case).state(key, marked(frame.state, write))


def counts_one_less(case):
    """A state doesn't count a write that was told done."""
    for key, _, frame in case.takings():
        floor = max(0, frame.state.issued - frame.state.settings.window)
        for write in sorted(it for it in frame.state.counted if it >= floor)[-1:]:
            yield Draft(case).state(key, marked(frame.state, write))


def counts_what_was_refused(case):
    """A write that a state counts was told done, which was refused."""
    for key, end, _ in case.takings():
        start = case.start_of(key, end)
        for at in case.steps("done", str(key[1]), str(key[2])):
            if start < at < end:
                yield Draft(case).answer(at, "refused 83 NoWrite")


def issues_one_more(case):
    """A state tells of one write more than was given."""
    for key, _, frame in case.takings():
        state = frame.state
        if state.issued < state.settings.window:
            more = with_number(state.spelling, ISSUED, state.issued + 1)
            yield Draft(case).state(key, more)


def issues_one_less(case):
    """A state doesn't tell of the last write that was given, which it doesn't count."""
    for key, _, frame in case.takings():
        state = frame.state
        if 0 < state.issued <= state.settings.window and state.issued - 1 not in state.counted:
            yield Draft(case).state(key, with_number(state.spelling, ISSUED, state.issued - 1))


def given_and_not_told(case):
    """A write of which a state tells was asked for, and wasn't given."""
    for key, end, _ in case.takings():
        start, words = case.start_of(key, end), ("issue", str(key[1]), str(key[2]))
        for at in case.steps(*words):
            if start < at < end and case.story.steps[at].gives():
                yield Draft(case).answer(at, "ok held")


def of_another_setting(place, change):
    """A kind of states with another number at a place of the settings."""
    def kind(case):
        for key, _, frame in case.takings():
            state = frame.state
            if state.issued <= state.settings.window:
                byte = change(state.spelling[SETTINGS + place])
                yield Draft(case).state(key, with_byte(state.spelling, SETTINGS + place, byte))
    return kind


def settings_kinds():
    """A kind for each setting."""
    places = (("order", 0, lambda it: (it + 1) % 3), ("verify", 1, lambda it: 1 - it),
              ("pattern", 2, lambda it: it ^ 1), ("bs", 6, lambda it: it + 2),
              ("blocks", 11, lambda it: it ^ 1), ("total", 19, lambda it: it ^ 1),
              ("seed", 27, lambda it: it ^ 1), ("depth", 31, lambda it: it ^ 1),
              ("window", 34, lambda it: it + 1))
    for name, place, change in places:
        kind = of_another_setting(place, change)
        kind.__doc__ = f"A state has another {name} than its job."
        yield "settings", kind


BROKEN_STATES = (
    ("state", another_state_in_a_later_frame),
    ("state", another_state_shown),
    ("state", another_place_kept),
    ("taking", taken_without_a_trigger),
    ("taking", taken_without_a_start),
    ("taking", taken_before_started),
    ("taking", taken_by_another_server),
    ("taking", seen_first_in_a_copy),
    ("taking", shown_before_it_is_taken),
    ("count", counts_one_more),
    ("count", counts_one_less),
    ("count", counts_what_was_refused),
    ("issued", issues_one_more),
    ("issued", issues_one_less),
    ("issued", given_and_not_told),
    *settings_kinds(),
)
