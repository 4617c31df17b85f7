"""What comes of judging a script: how often each claim was judged, and what is wrong.

Two things may stop a judge: bytes or lines that can't be read, and something that is read, but
can't be judged here.
"""

from collections import Counter

# The claims, in the order in which they are told; `seen` says what each is.
CLAIMS = ("frames", "state", "taking", "count", "issued", "settings", "quiet", "report", "told",
          "honest", "whole", "none", "cut", "order", "ack", "kept", "ended", "numbers", "refused",
          "unknown")


class Unreadable(Exception):
    """Bytes that are no frame, or lines that aren't what is printed of a script."""


class Unjudged(Exception):
    """Something that can't be judged, and why."""


def require(holds, why):
    """What this doesn't hold of can't be read."""
    if not holds:
        raise Unreadable(why)


class Verdict:
    """What was judged, how often; what is wrong; and what can't be judged."""

    def __init__(self):
        self.judged, self.wrong, self.unjudged = Counter(), [], []

    def judge(self, claim, holds, why):
        """Counts a claim that was judged, and keeps why it is wrong."""
        self.judged[claim] += 1
        if not holds:
            self.wrong.append((claim, why))

    def leave(self, what, why):
        """Keeps what can't be judged, and why."""
        self.unjudged.append(f"{what}: {why}")

    def is_good(self):
        """Nothing is wrong, and nothing couldn't be judged."""
        return not self.wrong and not self.unjudged

    def line(self):
        """What is printed."""
        words = ", ".join(f"{claim} {self.judged[claim]}" for claim in CLAIMS if self.judged[claim])
        parts = [words or "nothing to judge"]
        parts += [f"WRONG {claim}: {why}" for claim, why in self.wrong]
        parts += [f"not judged: {why}" for why in self.unjudged]
        return "; ".join(parts)
