"""Follows what the client's note shows, and judges whether what has to be kept is shown.

A state has to be shown from the command on with which it came to the client in a State, and each
state of a run and server once each job has told its State or its NoState. Later it is looked for
behind the commands of the client, which only a client that is on answers ok.
"""

ASKED = ("begin", "trigger", "stop", "verify", "tick", "restart client")


class Note:
    """What the client's note shows: of each key the bytes of a state."""

    def __init__(self):
        self.shown = {}

    def follow(self, changes):
        """The changes of one more step."""
        for key, spelling in changes:
            if spelling is None:
                self.shown.pop(key, None)
            else:
                self.shown[key] = spelling


class Due:
    """The states that a note has to show, and the keys of those that it doesn't."""

    def __init__(self, note):
        self.note, self.states, self.missing = note, {}, set()

    def add(self, key, spelling):
        """One more state. Where another one of its key is due, no note can show both."""
        if self.states.setdefault(key, spelling) != spelling:
            self.states[key] = None
        self.look(key)

    def look(self, key):
        """Looks whether the note shows the state of this key."""
        self.missing.discard(key)
        if key in self.states and self.note.shown.get(key, b"") != self.states[key]:
            self.missing.add(key)


class Jobs:
    """The jobs of a run at a server that have told the client their State or NoState."""

    def __init__(self, count):
        self.count, self.told = count, set()

    def have_all_told(self):
        """Each job has."""
        return all(job in self.told for job in range(self.count))


class Keeping:
    """What the client has to keep, and what its note shows."""

    def __init__(self, story, verdict):
        self.story, self.verdict, self.note = story, verdict, Note()
        self.lose()

    def lose(self):
        """The note is lost: nothing has to be shown any more."""
        self.kept, self.ended, self.jobs = Due(self.note), Due(self.note), {}

    def follow(self, at):
        """One more step."""
        step = self.story.steps[at]
        if step.does("losenote"):
            self.lose()
        came = [frame for frame in self.story.came[at]
                if frame.source.isdigit() and frame.target == "client"]
        self.note.follow(self.story.changes[at])
        for frame in came:
            self.hear(at, frame)
        for frame in self.story.sent[at]:
            if frame.state and self.has_ended(frame.state.key[0], str(frame.state.key[1])):
                self.ended.add(frame.state.key, frame.state.spelling)
        for key, _ in self.story.changes[at]:
            self.kept.look(key)
            self.ended.look(key)
        self.judge(step, [frame.state.key for frame in came if frame.kind == "State"])

    def hear(self, at, frame):
        """A frame comes to the client: where it is a State or a NoState, it tells of its job."""
        if frame.kind == "State":
            run, _, job = frame.state.key
            self.kept.add(frame.state.key, frame.state.spelling)
        elif frame.kind == "NoState":
            run, job = frame.fields["run"], frame.fields["job"]
        else:
            return
        jobs = self.jobs.setdefault((run, frame.source), Jobs(frame.fields["jobs"]))
        jobs.told.add(job)
        if jobs.have_all_told():
            for key in self.story.keys_before(at, run, frame.source):
                self.ended.add(key, self.story.seen[key][1].state.spelling)

    def has_ended(self, run, server):
        """Each job of the run has told at this server."""
        return (run, server) in self.jobs and self.jobs[run, server].have_all_told()

    def judge(self, step, came):
        """The claims kept and ended, behind a step, with the keys of the State that came."""
        name = " ".join(step.words)
        for key in came:
            self.verdict.judge("kept", key not in self.kept.missing,
                               f"{name}: the state of {key} came, and the note doesn't show it")
        if step.answer[0] != "ok" or not name.startswith(ASKED):
            return
        for claim, due in (("kept", self.kept), ("ended", self.ended)):
            if due.states:
                self.verdict.judge(claim, not due.missing, f"{name}: the note doesn't show the "
                                   f"states of {sorted(due.missing)}")


def judge_keeping(story, verdict):
    """The claims kept and ended."""
    keeping = Keeping(story, verdict)
    for at in range(len(story.steps)):
        keeping.follow(at)
