"""Makes outputs in which the client's note shows another thing than it should: each kind is false
by one claim."""

from judging.draft import Draft, spell
from judging.notes import ASKED, Note


def shown_at(case):
    """What the client's note shows behind each step."""
    note, shown = Note(), []
    for changes in case.story.changes:
        note.follow(changes)
        shown.append(dict(note.shown))
    return shown


def asked_behind(case, at):
    """The commands of the client behind a step that it answers ok, up to a lost note."""
    for step in range(at + 1, len(case.story.steps)):
        if case.story.steps[step].does("losenote"):
            return
        words = " ".join(case.story.steps[step].words)
        if case.story.steps[step].answer[0] == "ok" and words.startswith(ASKED):
            yield step


def kept_since(case):
    """The keys of the States that came to the client, each with the step."""
    came = {}
    for at, frames in enumerate(case.story.came):
        for frame in frames:
            if frame.kind == "State" and frame.target == "client":
                came.setdefault(frame.state.key, at)
    return came


def forgets_at_a_command(case):
    """The client's note doesn't show a state that came, behind a command of the client."""
    shown = shown_at(case)
    for key, came in kept_since(case).items():
        for at in asked_behind(case, came):
            if key in shown[at]:
                yield Draft(case).hide(at, key).show(at, key, None)


def forgets_by_a_restart(case):
    """The client is restarted, and its note doesn't show a state that came."""
    kept = kept_since(case)
    for at in case.steps("restart", "client"):
        for change in case.read.changes:
            if change[0] == at and change[1] in kept and at in asked_behind(case, kept[change[1]]):
                yield Draft(case).hide(at, change[1])


def takes_and_does_not_keep(case):
    """A State comes to the client, which keeps it later."""
    for key, came in kept_since(case).items():
        is_last = came + 1 == len(case.story.steps)
        if not is_last and any(it[:2] == (came, key) for it in case.read.changes):
            spelling = case.story.seen[key][1].state.spelling
            yield Draft(case).hide(came, key).show(came + 1, key, spelling)


def forgets_all_of_a_run(case):
    """The client's note shows no state of a run any more, once all jobs have told theirs."""
    shown = shown_at(case)
    for (run, server), keys in case.story.keys.items():
        kept = kept_since(case)
        jobs = {frame.fields["jobs"] for _, _, frame in case.frames("State")
                if frame.state.key[:2] == (run, server)}
        if all(key in kept for key in keys) and jobs == {len(keys)}:
            for at in list(asked_behind(case, max(kept[key] for key in keys)))[::-1]:
                if all(key in shown[at] for key in keys):
                    draft = Draft(case)
                    for key in keys:
                        draft.hide(at, key).show(at, key, None)
                    yield draft


def told_that_there_is_none(case):
    """The States of a run that came are NoStates, and no note shows what other frames have."""
    for (run, server), keys in case.story.keys.items():
        draft, said = Draft(case), {}
        for at, number, frame in case.frames("State"):
            if frame.state.key[:2] == (run, server):
                came = case.steps("deliver", str(number))
                if came:
                    said[frame.state.key] = came[0]
                    draft.frame(number, spell("NoState", str(server), "client", run,
                                              frame.state.key[2], frame.fields["jobs"]))
        for key in keys:
            draft.changes = [it for it in draft.changes if it[1] != key]
        later = [at for at, _, frame in case.frames("Saved", "Copy")
                 if frame.state.key[:2] == (run, server)]
        if len(said) == len(keys) and later and list(asked_behind(case, max([*said.values(),
                                                                           later[0]]))):
            yield draft


def forgets_with_a_refusal(case):
    """A command is refused, and the client's note doesn't show a state any more."""
    shown = shown_at(case)
    for at, step in enumerate(case.story.steps):
        for key in sorted(shown[at]) if step.answer[0] == "refused" else ():
            yield Draft(case).show(at, key, None)


BROKEN_NOTES = (
    ("kept", forgets_at_a_command),
    ("kept", forgets_by_a_restart),
    ("kept", takes_and_does_not_keep),
    ("ended", forgets_all_of_a_run),
    ("ended", told_that_there_is_none),
    ("refused", forgets_with_a_refusal),
)
