"""Makes outputs in which something happens to a frame that wasn't sent, or to a write that wasn't
given."""

from judging.draft import Draft


def delivers_what_was_not_sent(case):
    """A frame comes that wasn't sent by then."""
    sent = 0
    for at, step in enumerate(case.story.steps):
        if step.words[0] == "deliver" and int(step.words[1]) >= sent:
            yield Draft(case).answer(at, "ok")
        sent += len(case.story.sent[at])


ENDS = ("land", "done", "fail")


def before_it_is_given(case, command):
    """The steps at which a write is given, of which this command alone tells later, and none of the
    others."""
    told = {word: {tuple(case.story.steps[at].words[1:4]) for at in case.steps(word)} for word in ENDS}
    for at, step in enumerate(case.story.steps):
        write = (*step.words[1:3], step.answer[2]) if step.gives() else None
        if write and [word for word in ENDS if write in told[word]] == [command]:
            yield at


def is_given_twice(case, at):
    """A write of the same file and number is given at another step, too."""
    here = case.story.steps[at]
    return any(other != at and step.gives() and step.words[1:3] == here.words[1:3]
               and step.answer[2] == here.answer[2]
               for other, step in enumerate(case.story.steps))


def lands_what_was_not_given(case):
    """A write lands that wasn't given."""
    for at in before_it_is_given(case, "land"):
        if not is_given_twice(case, at):
            yield Draft(case).answer(at, "ok held")


def ends_what_was_not_given(case):
    """A write is done that wasn't given."""
    for at in before_it_is_given(case, "done"):
        if not is_given_twice(case, at):
            yield Draft(case).answer(at, "ok full")


def fails_what_was_not_given(case):
    """A write has failed that wasn't given."""
    for at in before_it_is_given(case, "fail"):
        if not is_given_twice(case, at):
            yield Draft(case).answer(at, "ok overlap")


def ends_a_later_write(case):
    """A write is told done that was refused, as it wasn't given."""
    given = set()
    for at, step in enumerate(case.story.steps):
        if step.words[0] in ENDS and step.answer[0] == "refused":
            if tuple(step.words[1:4]) not in given:
                yield Draft(case).answer(at, "ok")
        if step.gives():
            given.add((step.words[1], step.words[2], step.answer[2]))


BROKEN_UNKNOWN = (
    ("unknown", delivers_what_was_not_sent),
    ("unknown", lands_what_was_not_given),
    ("unknown", ends_what_was_not_given),
    ("unknown", fails_what_was_not_given),
    ("unknown", ends_a_later_write),
)
