"""Judges what is told of what isn't there: a frame that wasn't sent, and a write that wasn't
given."""

ENDS = ("land", "done", "fail")


def judge_unknown(story, verdict):
    """The claim unknown."""
    sent, given = 0, set()
    for at, step in enumerate(story.steps):
        words = step.words
        is_there = True
        if words[0] == "deliver":
            is_there = int(words[1]) < sent
        elif words[0] in ENDS:
            is_there = tuple(words[1:4]) in given
        if not is_there:
            verdict.judge("unknown", step.answer[0] == "refused",
                          f"{' '.join(words)} is told {' '.join(step.answer)}, and there was none")
        if step.gives():
            given.add((words[1], words[2], step.answer[2]))
        sent += len(story.sent[at])
