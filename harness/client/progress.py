"""How far a run's writes are, as the servers' harnesses tell it."""
import time

from say import say

# So often it is asked for, where writes pull the trigger; and so often it is said.
QUICK, LINES = 0.05, 1


class Progress:
    """Asks again and again how many writes are done at each server, and says it once a second."""

    def __init__(self, fleet, run, totals, is_quick=False):
        self.fleet, self.run, self.totals = fleet, run, totals
        self.every = QUICK if is_quick else LINES / 2
        self.begun = self.asked = self.said = time.monotonic()
        self.done = [0] * len(fleet.servers)
        self.before = list(self.done)

    def seconds(self):
        return time.monotonic() - self.begun

    def total_done(self):
        return sum(self.done)

    def total(self):
        """How many writes all servers have together, or None where that isn't known."""
        return self.totals() and self.totals() * len(self.done)

    def failed(self):
        """Why a write of the run has failed, and where, or nothing."""
        for server, ends in enumerate(self.ends()):
            if ends and ends.failed:
                return f"server {server}: {ends.why or 'it says no more'}"
        return ""

    def ask(self):
        self.asked = time.monotonic()
        for it in self.fleet.servers:
            it.ask_ends()

    def ends(self):
        """How many writes of each server are done, and have failed, by what came last."""
        ends = [it.ends_of(self.run) for it in self.fleet.servers]
        self.done = [max(had, it.done) if it else had for had, it in zip(self.done, ends)]
        return ends

    def step(self):
        """Asks, and says, what is due by now."""
        now, ends = time.monotonic(), self.ends()
        if now - self.asked >= self.every:
            self.ask()
        if now - self.said >= LINES:
            say(f"{self.seconds():.0f} s: " + "; ".join(self.words(at, it, now - self.said) for at, it in enumerate(ends)))
            self.said, self.before = now, list(self.done)

    def tell_last(self):
        """Says how far each server came, by what was asked at the trigger: a link keeps its order, so
        that the answer stands before the server's state."""
        say(f"the writes of run {self.run}: " + "; ".join(self.words(at, it) for at, it in enumerate(self.ends())))

    def words(self, server, ends, seconds=None):
        """How far a server is, and how fast in the last of these seconds."""
        if ends is None:
            return f"server {server} doesn't say"
        total = self.totals()
        far = f" of {total}" if total else ""
        failed = f", {ends.failed} failed" if ends.failed else ""
        speed = f"{(self.done[server] - self.before[server]) / seconds:.0f} writes a second, " if seconds else ""
        return f"server {server} {speed}{self.done[server]}{far} done{failed}"
