"""Judges the verify states: that there is one of each key, and that it was taken as it says.

The first frame with a state is where it was taken, and the client's note shows none that isn't
seen. It says which writes were issued and done by then; the script tells this, too, from the
server's first Started of the run on.
"""

from judging.index import between
from judging.verdict import Unjudged


def judge_states(story, verdict):
    """The claims state, taking, count, issued, settings and quiet."""
    for at in range(len(story.steps)):
        for frame in story.sent[at]:
            if frame.state:
                judge_same(story, verdict, frame.state.key, frame.state.spelling, frame.kind)
        for key, spelling in story.changes[at]:
            if spelling is not None and story.is_seen_before(at + 1, key):
                judge_same(story, verdict, key, spelling, "note")
            elif spelling is not None:
                verdict.judge("taking", False, f"the note shows a state of {key} that wasn't sent")
    for at, frame in story.seen.values():
        taking = Taking(story, at, frame)
        taking.judge_frame(verdict)
        taking.judge_writes(verdict)
        taking.judge_settings(verdict)
        taking.judge_quiet(verdict)


def judge_same(story, verdict, key, spelling, where):
    """The claim state: these are the bytes in which the state of the key is seen first."""
    same = story.seen[key][1].state.spelling == spelling
    verdict.judge("state", same, f"another state of {key} in a {where}")


class Taking:
    """The step in which a state is first sent, and that in which its server first says that the run
    has started."""

    def __init__(self, story, at, frame):
        self.story, self.at, self.frame, self.state = story, at, frame, frame.state
        self.run, server_number, self.job = frame.state.key
        self.server = str(server_number)
        self.name = f"state {frame.state.key}"
        started = story.says(self.server, "Started", run=self.run)
        self.start = started[0] if started else at

    def judge_frame(self, verdict):
        """A State of the server, sent when a Trigger comes; before, a Start comes."""
        names = (self.frame.kind, self.frame.source, self.frame.target)
        is_triggered = self.at in self.story.hears(self.server, "Trigger", run=self.run)
        starts = self.story.hears(self.server, "Start", run=self.run)
        is_started = self.start < self.at and self.start in starts
        verdict.judge("taking", names == ("State", self.server, "client") and is_triggered
                      and is_started, self.name)

    def judge_writes(self, verdict):
        """Between the two, exactly the counted writes were done, and exactly those below the number
        of issued ones were given."""
        file, writes = (self.server, str(self.job)), self.story.writes
        done = between(writes.done[file], self.start, self.at)
        verdict.judge("count", done == self.state.counted, f"{self.name} counts "
                      f"{short(self.state.counted)}, and {short(done)} were done")
        given = between(writes.given[file], self.start, self.at)
        issued = set(range(self.state.issued))
        verdict.judge("issued", given == issued, f"{self.name} says {short(issued)} were issued, "
                      f"and {short(given)} were given")

    def judge_settings(self, verdict):
        """The settings are those of the job in the text with which the run was begun."""
        try:
            job = self.story.job_before(self.at, self.run, self.job)
        except Unjudged as why:
            verdict.leave(f"settings of {self.name}", why)
            return
        differences = self.state.settings.differences(job.settings) if job else "a job of no text"
        verdict.judge("settings", not differences, f"{self.name} has {differences}")

    def judge_quiet(self, verdict):
        """The server gives no write up to its last Report of the run."""
        reported = self.story.says(self.server, "Report", run=self.run)
        if reported and reported[-1] > self.at:
            is_given = self.story.writes.gives_between(self.server, self.at, reported[-1])
            verdict.judge("quiet", not is_given,
                          f"server {self.server} gives a write behind {self.name}")


def short(writes):
    """Some writes, as they are told."""
    return " ".join(str(write) for write in sorted(writes)) or "none"
