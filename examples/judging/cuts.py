"""Judges the cuts and the acknowledgements: a server asks for its cut when the last StateAck has
come to it, and where a Trigger ordered it; and the client acknowledges what its note shows.
"""

from judging.notes import Note

CUT = 1  # the act of a Trigger that orders the cut


def judge_cuts(story, verdict):
    """The claims cut and order."""
    for at, step in enumerate(story.steps):
        for server in step.cuts:
            acks = [frame for frame in story.came[at] if (frame.kind, frame.source, frame.target)
                    == ("StateAck", "client", server)]
            missing = [key for ack in acks
                       for key in story.keys_before(at, ack.fields["run"], server)
                       if not has_come(at + 1, story.hears(server, "StateAck", run=key[0],
                                                           job=key[2]))]
            name = f"server {server} asks for its cut at {' '.join(step.words)}"
            verdict.judge("cut", acks and not missing,
                          f"{name}, without a StateAck of {missing or 'any'}")
            ordered = [ack for ack in acks if has_come(at, story.hears(
                server, "Trigger", run=ack.fields["run"], act=CUT))]
            verdict.judge("order", ordered, f"{name}, and no Trigger of the run ordered it")


def has_come(end, steps):
    """The first of these steps is before this one."""
    return bool(steps) and steps[0] < end


def judge_answers(story, verdict):
    """The claims ack, none and refused."""
    note, kept = Note(), set()
    for at, step in enumerate(story.steps):
        changes = story.changes[at]
        if step.answer[0] == "refused":
            verdict.judge("refused", not step.sent and not changes, f"{' '.join(step.words)} is "
                          f"refused, and frames are sent or the note shows something else")
        if step.does("losenote"):
            kept = set()
        note.follow(changes)
        for frame in story.sent[at]:
            if (frame.source == "client" and frame.target.isdigit()
                    and frame.kind in ("StateAck", "NoSaved")):
                key = (frame.fields["run"], int(frame.target), frame.fields["job"])
                if frame.kind == "NoSaved":
                    verdict.judge("none", key not in kept and key not in note.shown,
                                  f"a NoSaved of {key}, whose state the client keeps")
                else:
                    judge_ack(story, verdict, at, key, note)
                    kept.update({key} & set(note.shown))


def judge_ack(story, verdict, at, key, note):
    """A StateAck answers a State of its key, which the note shows then, or a NoState where no state
    of the key was seen."""
    came = [frame for frame in story.came[at] if (frame.source, frame.target)
            == (str(key[1]), "client")]
    has_state = key in note.shown and any(
        frame.kind == "State" and frame.state.key == key for frame in came)
    has_none = not story.is_seen_before(at, key) and any(
        frame.kind == "NoState" and frame.fields["run"] == key[0]
        and frame.fields["job"] == key[2] for frame in came)
    verdict.judge("ack", has_state or has_none, f"a StateAck of {key}, whose state didn't come or "
                  f"isn't shown, and the server hasn't said that it has none")
