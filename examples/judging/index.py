"""Finds steps without going through all of them: those of frames, and those of writes.

So a judge takes no longer for a step at the end of a long script than for one at its beginning.
"""

from bisect import bisect_left, bisect_right
from collections import defaultdict


class Frames:
    """The steps of frames, by their kinds, their nodes and some of their fields."""

    def __init__(self, frames_at):
        self.frames_at, self.tables = frames_at, {}

    def steps_of(self, kind, source, target, fields):
        """The steps that have a frame of this kind, from and to these nodes, with these fields, in
        their order."""
        names = tuple(sorted(fields))
        if (kind, names) not in self.tables:
            self.tables[kind, names] = self.table_of(kind, names)
        wanted = source, target, *(fields[name] for name in names)
        return self.tables[kind, names].get(wanted, ())

    def table_of(self, kind, names):
        """The steps of the frames of a kind, by their nodes and these fields."""
        table = defaultdict(list)
        for at, frames in enumerate(self.frames_at):
            for frame in frames:
                if frame.kind == kind:
                    values = (frame.fields[name] for name in names)
                    table[frame.source, frame.target, *values].append(at)
        return table


class Writes:
    """The steps that give a write, and those with which one is told done, by server and job."""

    def __init__(self, steps):
        self.given, self.done, self.by_server = (defaultdict(list) for _ in range(3))
        for at, step in enumerate(steps):
            file = tuple(step.words[1:3])
            if step.gives():
                self.given[file].append((at, int(step.answer[2])))
                self.by_server[file[0]].append(at)
            elif step.does("done"):
                self.done[file].append((at, int(step.words[3])))

    def gives_between(self, server, start, end):
        """A server gives a write between two steps."""
        steps = self.by_server[server]
        return bisect_right(steps, start) < bisect_left(steps, end)


def between(writes, start, end):
    """The writes that have their step between these two."""
    return {write for _, write in writes[bisect_left(writes, (start + 1,)):
                                         bisect_left(writes, (end,))]}
