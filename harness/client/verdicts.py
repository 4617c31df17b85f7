"""How an attempt to verify ended, as the client's node tells it: at each place, which is a server and
one of its jobs, and in one word for all of them. docs/NODES.md says what each is; here nothing is
decided."""
import struct

from records import REFUSALS

SOUND, FAULTS, NOT_WHOLE, NO_VERDICT = range(4)
WORDS = {SOUND: "sound", FAULTS: "faults", NOT_WHOLE: "not checked whole", NO_VERDICT: "no verdict"}
REFUSED, UNASKED, UNANSWERED, IN_FULL, UNREAD, NOTHING, WITH_FAULTS, ALL_SOUND = range(1, 9)
PLACE, WHOLE = struct.Struct(">QQIIIIIII"), struct.Struct(">QQBQQ")


class Place:
    """How an attempt ended at one place."""

    def __init__(self, body):
        self.run, self.attempt, self.server, self.job, self.end, self.checked, self.faults, self.block, self.reason = PLACE.unpack(body)

    def has_report(self):
        return self.end in (IN_FULL, UNREAD, NOTHING, WITH_FAULTS, ALL_SOUND)

    def is_by_state(self):
        return self.has_report() and self.end != IN_FULL

    def why(self):
        """Why there is no report, in words."""
        if self.end == REFUSED:
            return f"refused {self.reason} {REFUSALS.get(self.reason, '')}".strip()
        return "its state is kept, and it wasn't asked for" if self.end == UNASKED else "not answered"


class Verdict:
    """The word for all places, and how the attempt ended at each."""

    def __init__(self, body, places):
        self.run, self.attempt, self.word, self.checked, self.faults = WHOLE.unpack(body)
        self.places = places
