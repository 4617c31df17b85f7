"""Writes an output anew, with some of it changed.

Frames are known by their bytes, and each `sent` line is made of those: so what was changed reads
well, and says another thing.
"""

import struct

from judging.frames import KINDS, NODES, read_frame
from judging.steps import read_output
from judging.story import Story
from judging.verdict import Verdict

NUMBERS = {kind: (number, widths) for number, (kind, widths, _) in KINDS.items()}
STATE = 136  # how many bytes a state has, at the end of its frame


def spell(kind, source, target, *numbers, rest=b""):
    """The bytes of a frame."""
    number, widths = NUMBERS[kind]
    body = struct.pack(widths, *numbers) + rest
    nodes = NODES.index(source), NODES.index(target)
    return b"FC\x01" + struct.pack(">BIII", number, *nodes, len(body)) + body


def spell_report(frame, report, **others):
    """The bytes of a Report as this frame, with another report, or with other numbers."""
    fields = {**frame.fields, **others}
    numbers = (fields[name] for name in ("run", "attempt", "job", "jobs"))
    end = {"whole": 0, "fault": 1}[report.end]
    rest = struct.pack(f">{len(report.first)}I", *report.first)
    return spell("Report", frame.source, frame.target, *numbers, end, 0, report.checked,
                 report.faults, len(report.first), rest=rest)


class Case:
    """A script and what is printed of it, from which others are made that are wrong."""

    def __init__(self, name, script, output):
        self.name, self.script, self.printed = name, script, output
        self.read = read_output(output)
        self.story = Story(script, output, Verdict())
        # The numbers of the frames that each step sends.
        numbers = iter(range(len(self.read.frames)))
        self.sent = [[next(numbers) for _ in frames] for frames in self.story.sent]

    def frames(self, *kinds):
        """The frames of these kinds: the step, the number and the frame of each."""
        for at, numbers in enumerate(self.sent):
            for number in numbers:
                if self.story.frames[number].kind in kinds:
                    yield at, number, self.story.frames[number]

    def steps(self, *words):
        """The steps that begin with these words and weren't refused."""
        return [at for at, step in enumerate(self.story.steps) if step.does(*words)]

    def takings(self):
        """The key of each state, the step in which it is seen first, and its frame."""
        return [(key, at, frame) for key, (at, frame) in self.story.seen.items()]

    def start_of(self, key, at):
        """The step in which the server of a key first says that the run has started."""
        started = self.story.says(str(key[1]), "Started", run=key[0])
        return started[0] if started else at


class Draft:
    """An output that is changed."""

    def __init__(self, case):
        self.case = case
        self.answers = [[list(words), list(cuts)] for words, _, cuts in case.read.answers]
        self.frames, self.changes = list(case.read.frames), list(case.read.changes)
        self.lines = {}

    def answer(self, at, words):
        """Another answer to a command."""
        self.answers[at][0] = words.split(" ")
        return self

    def cut(self, at, server):
        """A server asks for its cut at a command."""
        self.answers[at][1].append(server)
        return self

    def no_cut(self, at):
        """No server asks for its cut at a command."""
        self.answers[at][1].clear()
        return self

    def frame(self, number, data):
        """Other bytes of a frame."""
        self.frames[number] = data
        return self

    def line(self, number, words):
        """Another `sent` line of a frame."""
        self.lines[number] = words
        return self

    def show(self, at, key, spelling):
        """From a command on, the client's note shows these bytes of a key, or none."""
        self.changes.append((at, key, spelling))
        return self

    def hide(self, at, key):
        """What the client's note shows of a key doesn't change at a command."""
        self.changes = [it for it in self.changes if it[:2] != (at, key)]
        return self

    def state(self, key, spelling):
        """Other bytes of the state of a key, wherever it is seen."""
        for number, frame in enumerate(self.case.story.frames):
            if frame.state and frame.state.key == key:
                self.frames[number] = self.frames[number][:-STATE] + spelling
        self.changes = [(at, other, spelling if it and other == key else it)
                        for at, other, it in self.changes]
        return self

    def sent_line(self, number):
        """The line of a frame, by its bytes."""
        frame, data = read_frame(self.frames[number]), self.frames[number]
        words = number, frame.source, frame.target, frame.kind, len(data)
        return self.lines.get(number) or " ".join(["sent", *map(str, words)])

    def text(self):
        """The output."""
        lines = []
        for (words, cuts), numbers in zip(self.answers, self.case.sent):
            lines.append(" ".join(words))
            lines += [self.sent_line(number) for number in numbers]
            lines += [f"act cut {server}" for server in cuts]
        lines += [" ".join(words) for words, _, _ in self.case.read.answers[len(self.case.sent):]]
        lines += [f"frame {number} {data.hex()}" for number, data in enumerate(self.frames)]
        for at, key, spelling in sorted(self.changes, key=lambda it: it[0]):
            shown = spelling.hex() if spelling else "none"
            lines.append(" ".join(map(str, ("saved", at, *key, shown))))
        return "".join(line + "\n" for line in lines)


def with_byte(spelling, place, byte):
    """Bytes with another one at a place."""
    return spelling[:place] + bytes([byte]) + spelling[place + 1:]


def with_number(spelling, place, number):
    """Bytes with another number of 8 bytes at a place."""
    return spelling[:place] + struct.pack(">Q", number) + spelling[place + 8:]
