"""What a client's note doesn't say of its runs, in a file beside it: the text of each, and behind which
runs of another fleet those of its own began. A check by a ledger takes each run since the one before."""
import json

from note import Refused
from sealed import keep_sealed, read_sealed

WHAT = "fiocut runs 1"


class Runs:
    """From which run to which each text was that of all runs; and of a fleet that has taken another one's
    place, which that was, its last run, and the number behind which the new one's begin."""

    def __init__(self, note):
        self.path = f"{note}.runs"
        self.rows, self.earlier = self.read()

    def read(self):
        """What the file has. Where it isn't as it was kept no text is known, as where there is none."""
        try:
            rows, earlier = json.loads(read_sealed(self.path, WHAT) or b"[[], {}]")
        except Refused:
            return [], {}
        return [tuple(it) for it in rows], {int(fleet): tuple(it) for fleet, it in earlier.items()}

    def keep(self):
        keep_sealed(self.path, WHAT, json.dumps([self.rows, self.earlier]).encode())

    def begin(self, run, text):
        """Keeps that the run, which is the next, begins with this text. One of that number that was kept, and
        any above it, wasn't begun."""
        text = text.decode("latin-1")
        rows = [(first, min(last, run - 1), of) for first, last, of in self.rows if first < run]
        if rows and rows[-1][1:] == (run - 1, text):
            rows[-1] = rows[-1][0], run, text
        else:
            rows.append((run, run, text))
        self.rows = rows
        self.keep()

    def follow(self, fleet, old, last, used):
        """Keeps that a new fleet takes the place of an old one behind its last run, and begins its own behind
        this number."""
        self.earlier = {fleet: (old, last, used)}
        self.keep()

    def text_of(self, run):
        """The text that a run was begun with, or None where that isn't known."""
        return next((of.encode("latin-1") for first, last, of in self.rows if first <= run <= last), None)

    def since(self, taken, fleet, last):
        """The runs from the one behind a fleet's run that was taken last to this fleet's last one; None where
        they aren't known."""
        of, run = taken
        if of == fleet:
            return range(run + 1, last + 1) if run <= last else None
        old, end, used = self.earlier.get(fleet, (None, 0, 0))
        return [*range(run + 1, end + 1), *range(used + 1, last + 1)] if of == old and run <= end and used <= last else None
