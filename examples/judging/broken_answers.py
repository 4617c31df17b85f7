"""Makes outputs whose answers, cuts or acknowledgements are wrong: each kind is false by one
claim."""

from judging.draft import Draft, spell


def lines_of_another_length(case):
    """A `sent` line tells of one byte more than the frame has."""
    for _, number, frame in case.frames("Jobs", "Started", "State", "Report", "CopyOk"):
        length = len(case.read.frames[number]) + 1
        words = f"sent {number} {frame.source} {frame.target} {frame.kind} {length}"
        yield Draft(case).line(number, words)


def lines_of_another_node(case):
    """A `sent` line tells of another node than the frame goes to."""
    for _, number, frame in case.frames("JobsOk", "Verify", "StateAck", "Copy", "Refused"):
        length = len(case.read.frames[number])
        words = f"sent {number} {frame.source} mirror {frame.kind} {length}"
        if frame.target != "mirror":
            yield Draft(case).line(number, words)


def says_none_of_a_kept_state(case):
    """A NoSaved is sent in place of a Saved."""
    for at, number, frame in case.frames("Saved"):
        run, server, job = frame.state.key
        yield Draft(case).frame(number, spell("NoSaved", "client", str(server), run,
                                              frame.fields["attempt"], job))


def says_none_of_an_acknowledged_state(case):
    """A NoSaved is sent of a state that was acknowledged, and the note does not show it then."""
    for at, number, frame in case.frames("Saved"):
        run, server, job = key = frame.state.key
        acks = [step for step, _, ack in case.frames("StateAck") if step < at and (
            ack.target, ack.fields["run"], ack.fields["job"]) == (str(server), run, job)]
        if acks and key not in [it[1] for it in case.read.changes if it[0] == at] and not [
                step for step in case.steps("losenote") if acks[0] < step < at]:
            draft = Draft(case).frame(number, spell("NoSaved", "client", str(server), run,
                                                    frame.fields["attempt"], job))
            if at + 1 < len(case.story.steps):
                draft.show(at + 1, key, frame.state.spelling)
            yield draft.show(at, key, None)


def says_none_and_shows_one(case):
    """A NoSaved is sent where the client's note shows a state."""
    for at, number, frame in case.frames("NoSaved"):
        key = (frame.fields["run"], int(frame.target), frame.fields["job"])
        for other, _, seen in case.takings():
            spelling = case.story.seen.get(key, (0, seen))[1].state.spelling
            yield Draft(case).show(at, key, spelling)


def cuts_with_the_trigger(case):
    """A server asks for its cut when the Trigger comes."""
    for key, at, _ in case.takings():
        yield Draft(case).cut(at, str(key[1]))


def cuts_before_the_last_is_kept(case):
    """A server asks for its cut when the first of several states is acknowledged."""
    for at, step in enumerate(case.story.steps):
        for frame in case.story.came[at] if step.cuts else ():
            run, job = frame.fields["run"], frame.fields["job"]
            keys = case.story.keys_before(at, run, frame.target)
            for key in keys if (run, int(frame.target), job) in keys else ():
                acks = case.story.hears(frame.target, "StateAck", run=run, job=key[2])
                others = [it for it in keys if it != key and case.story.hears(
                    frame.target, "StateAck", run=run, job=it[2])[0] > acks[0]]
                if others:
                    yield Draft(case).no_cut(at).cut(acks[0], frame.target)


def cuts_without_an_acknowledgement(case):
    """A server asks for its cut, and the last acknowledgement was of another job."""
    for at, step in enumerate(case.story.steps):
        for frame in case.story.came[at] if step.cuts else ():
            if (frame.fields["run"], int(frame.target), frame.fields["job"]) in case.story.seen:
                number = int(step.words[1])
                yield Draft(case).frame(number, spell("StateAck", "client", frame.target,
                                                      frame.fields["run"], 15))


def cuts_where_nothing_came(case):
    """A server asks for its cut behind a command with which nothing comes to it."""
    for at, step in enumerate(case.story.steps):
        if step.answer[0] == "ok" and step.words[0] in ("tick", "land", "done", "restart"):
            yield Draft(case).cut(at, "0")


def cuts_that_no_trigger_ordered(case):
    """A server asks for its cut, and no Trigger says so."""
    for at, step in enumerate(case.story.steps):
        for frame in case.story.came[at] if step.cuts else ():
            draft, run = Draft(case), frame.fields["run"]
            for _, number, other in case.frames("Trigger"):
                if (other.target, other.fields["run"]) == (frame.target, run):
                    draft.frame(number, spell("Trigger", "client", frame.target, run, 0))
            yield draft


def cuts_behind_a_plain_trigger(case):
    """A server asks for its cut behind all acknowledgements, where the Triggers don't say so."""
    for at, step in enumerate(case.story.steps):
        for frame in case.story.came[at]:
            if frame.kind == "StateAck" and not case.story.hears(
                    frame.target, "Trigger", run=frame.fields["run"], act=1):
                yield Draft(case).cut(at, frame.target)


def acknowledges_nothing(case):
    """A StateAck is sent where no state came, in place of a Jobs."""
    for _, number, frame in case.frames("Jobs"):
        yield Draft(case).frame(number, spell("StateAck", "client", frame.target,
                                              frame.fields["run"], 0))


def acknowledges_another_job(case):
    """A StateAck is of another job than the State that came."""
    for _, number, frame in case.frames("StateAck"):
        yield Draft(case).frame(number, spell("StateAck", "client", frame.target,
                                              frame.fields["run"], 15))


def acknowledges_a_state_that_did_not_come(case):
    """A StateAck is of a state that is kept, and that of another job came."""
    for at, number, frame in case.frames("StateAck"):
        run, server, job = frame.fields["run"], frame.target, frame.fields["job"]
        for other in case.story.keys[run, int(server)] if server.isdigit() else ():
            acks = case.story.hears(server, "StateAck", run=run, job=other[2])
            if other[2] != job and acks and acks[0] < at:
                yield Draft(case).frame(number, spell("StateAck", "client", server, run, other[2]))


def acknowledges_another_run(case):
    """A StateAck is of another run than the NoState that came."""
    for at, number, frame in case.frames("StateAck"):
        if any(came.kind == "NoState" for came in case.story.came[at]):
            yield Draft(case).frame(number, spell("StateAck", "client", frame.target,
                                                  frame.fields["run"] + 1, frame.fields["job"]))


def acknowledges_by_a_no_state(case):
    """A StateAck answers a NoState of a job whose state was seen."""
    for at, frames in enumerate(case.story.came):
        for frame in frames:
            if frame.kind == "State" and case.sent[at]:
                run, server, job = frame.state.key
                number = int(case.story.steps[at].words[1])
                if case.story.seen[frame.state.key][1] is not frame:
                    yield Draft(case).frame(number, spell("NoState", str(server), "client", run,
                                                          job, frame.fields["jobs"]))


def acknowledges_before_it_is_kept(case):
    """A StateAck is sent, and the client's note doesn't show the state."""
    for at, _, frame in case.frames("StateAck"):
        key = (frame.fields["run"], int(frame.target), frame.fields["job"])
        if any(it[:2] == (at, key) for it in case.read.changes):
            yield Draft(case).hide(at, key)


def begins_a_run_again(case):
    """A begin is told the number of an earlier run."""
    begun = case.steps("begin")
    for earlier, at in zip(begun, begun[1:]):
        yield Draft(case).answer(at, " ".join(case.story.steps[earlier].answer))


def asks_an_attempt_again(case):
    """A verify is told the number of an earlier attempt."""
    asked = case.steps("verify")
    for earlier, at in zip(asked, asked[1:]):
        yield Draft(case).answer(at, " ".join(case.story.steps[earlier].answer))


def sends_with_a_refusal(case):
    """A command that sends frames is refused."""
    for at, numbers in enumerate(case.sent):
        if numbers:
            yield Draft(case).answer(at, "refused 60 Old")


BROKEN_ANSWERS = (
    ("frames", lines_of_another_length),
    ("frames", lines_of_another_node),
    ("none", says_none_of_a_kept_state),
    ("none", says_none_of_an_acknowledged_state),
    ("none", says_none_and_shows_one),
    ("cut", cuts_with_the_trigger),
    ("cut", cuts_before_the_last_is_kept),
    ("cut", cuts_without_an_acknowledgement),
    ("cut", cuts_where_nothing_came),
    ("order", cuts_that_no_trigger_ordered),
    ("order", cuts_behind_a_plain_trigger),
    ("ack", acknowledges_nothing),
    ("ack", acknowledges_another_job),
    ("ack", acknowledges_a_state_that_did_not_come),
    ("ack", acknowledges_another_run),
    ("ack", acknowledges_by_a_no_state),
    ("ack", acknowledges_before_it_is_kept),
    ("numbers", begins_a_run_again),
    ("numbers", asks_an_attempt_again),
    ("refused", sends_with_a_refusal),
)
