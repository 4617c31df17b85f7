"""Tells what happens in a script, step by step: which frames are sent, which come, and what the
client's note shows.

A frame is known by its bytes, and each has to be as its `sent` line says. The other judges ask here
in which steps a node says something or hears it, and by which job file a run was begun.
"""

from bisect import bisect_left
from collections import defaultdict

from judging.frames import read_frame
from judging.index import Frames, Writes
from judging.job_files import job_in
from judging.states import read_state
from judging.steps import read_steps
from judging.verdict import Unreadable


class Story:
    """The steps of a script; for each a list of the frames that were sent with it, a list of those
    that came with it to their node, at most one, and a list of the changes of what the client's
    note shows: keys, each with the bytes of a state or None. `seen` has of each key the step and
    the frame in which a state of it stood first; `keys` those of each run and server."""

    def __init__(self, script, output, verdict):
        self.steps, read = read_steps(script, output)
        self.frames, self.sent, self.came = [], [], []
        self.seen, self.keys, self.told = {}, defaultdict(list), defaultdict(list)
        for at, step in enumerate(self.steps):
            self.came.append(self.arrivals(step))
            first = len(self.frames)
            for line in step.sent:
                self.take(at, line, read.frames, verdict)
            self.sent.append(self.frames[first:])
            if step.does("begin") or step.does("verify"):
                self.told[step.words[0], step.answer[2]].append(at)
        if len(read.frames) != len(self.frames):
            raise Unreadable("a frame is shown that wasn't sent")
        self.changes = [[] for _ in self.steps]
        for change in read.changes:
            self.take_change(*change)
        self.by_sent, self.by_came = Frames(self.sent), Frames(self.came)
        self.writes = Writes(self.steps)

    def arrivals(self, step):
        """The frames that come to their node with a step."""
        if step.does("deliver") and int(step.words[1]) < len(self.frames):
            return [self.frames[int(step.words[1])]]
        return []

    def take(self, at, line, shown, verdict):
        """One more frame, which is to be as its line says."""
        if len(self.frames) == len(shown):
            raise Unreadable(f"frame {len(shown)} isn't shown")
        data = shown[len(self.frames)]
        frame = read_frame(data)
        due = [str(len(self.frames)), frame.source, frame.target, frame.kind, str(len(data))]
        verdict.judge("frames", line == due,
                      f"sent {' '.join(line)}, and the bytes say {' '.join(due)}")
        self.frames.append(frame)
        if frame.state and frame.state.key not in self.seen:
            self.seen[frame.state.key] = at, frame
            self.keys[frame.state.key[:2]].append(frame.state.key)

    def take_change(self, at, key, spelling):
        """One more change of what the client's note shows, whose bytes are to be a state."""
        if not 0 <= at < len(self.steps):
            raise Unreadable(f"the note shows something behind command {at}")
        if spelling is not None:
            read_state(spelling)
        self.changes[at].append((key, spelling))

    def says(self, server, kind, **fields):
        """The steps with which a server sends such a frame to the client."""
        return self.by_sent.steps_of(kind, server, "client", fields)

    def hears(self, server, kind, **fields):
        """The steps with which such a frame of the client comes to a server."""
        return self.by_came.steps_of(kind, "client", server, fields)

    def is_seen_before(self, end, key):
        """A state of this key stands in a frame that was sent before this step."""
        return key in self.seen and self.seen[key][0] < end

    def keys_before(self, end, run, server):
        """The keys of this run and server of which a state is seen before this step."""
        return [key for key in self.keys[run, int(server)] if self.is_seen_before(end, key)]

    def told_before(self, end, command, number):
        """The last step before this one that was told this number, of a run or of an attempt."""
        steps = self.told.get((command, str(number)), ())
        place = bisect_left(steps, end)
        return self.steps[steps[place - 1]] if place else None

    def job_before(self, end, run, number):
        """A job of the text with which a run was begun before this step, or None."""
        begin = self.told_before(end, "begin", run)
        return job_in(begin.text, number) if begin else None
