"""The records of `fiocut_node` and the frames that go over links; docs/NODES.md is the manual."""
import struct
import zlib

# What it reads, and what it writes.
NOTE, FRAME = 1, 2
BEGIN, TRIGGER, STOP, VERIFY, TICK, LOOK, SHOW, ENDS_OF = range(7, 15)
SAVE, SEND = 65, 66
NUMBER, OUTCOME, REPORT, ENDED, END_AT, END_OF_ALL = range(70, 76)
HEAD, FRAME_HEAD = 9, 16
# What stands before a frame on a link; how long a frame is at most, a query or its answer, and a record.
LINK_MAGIC, LINK_HEAD = b"FL\2\0", 12
LONGEST_FRAME, LONGEST_QUERY, LONGEST_RECORD = 1073, (4 << 20) + 64, 64 << 20

# How a request stands; what is above is why it was refused.
NONE, OPEN, GOOD = range(3)
REFUSALS = {60: "Old", 61: "Busy", 62: "NoJobs", 63: "Gone", 64: "Overwritten", 65: "Unknown", 66: "BadJobs", 67: "Misfit"}
# The kinds of requests, as LOOK asks of them.
REQUESTS = {"begin": 1, "trigger": 2, "stop": 3, "verify": 4}
# Those of the frames that a mirror sends, and where they come from.
COPY, COPY_OK, GRANTED = 18, 19, 21
MIRROR = 9


def record(kind, body=b""):
    return bytes([kind]) + struct.pack(">Q", len(body)) + body


def read_record(stream):
    """Returns the kind and the body of the next record, or None at the end."""
    head = stream.read(HEAD)
    if len(head) < HEAD:
        return None
    length = struct.unpack(">Q", head[1:])[0]
    if length > LONGEST_RECORD:
        return None # (what says this is no node)
    body = stream.read(length)
    return (head[0], body) if len(body) == length else None


def enveloped(frame):
    """Returns what goes over a link for a frame, or for what the harnesses say to each other: behind a
    head with its length and its sum (harness/server/envelope.h)."""
    front = LINK_MAGIC + struct.pack(">I", len(frame))
    return front + struct.pack(">I", zlib.crc32(frame, zlib.crc32(front))) + frame


def is_whole(frame):
    """Whether bytes are a frame or a query, by its magic and its length."""
    longest = {b"FC": LONGEST_FRAME, b"FH": LONGEST_QUERY}.get(frame[:2], 0)
    return len(frame) <= longest and len(frame) == FRAME_HEAD + struct.unpack(">I", frame[12:FRAME_HEAD])[0]


def read_frame(stream):
    """Returns the next frame of a link, or what the harnesses say to each other over it; None where
    it has ended, and no bytes where what comes is neither, or isn't what was sent."""
    head = stream.read(LINK_HEAD)
    if len(head) < LINK_HEAD:
        return None
    length, total = struct.unpack(">II", head[4:])
    if head[:4] != LINK_MAGIC or not FRAME_HEAD <= length <= LONGEST_QUERY:
        return b""
    frame = stream.read(length)
    if len(frame) < length:
        return None
    return frame if is_whole(frame) and zlib.crc32(frame, zlib.crc32(head[:8])) == total else b""


def addressee(frame):
    return struct.unpack(">I", frame[8:12])[0]


class Report:
    """The report of a check: of one job at one server."""

    ENDS = {0: "whole", 1: "fault"}

    def __init__(self, body):
        self.run, self.attempt, self.server, self.job, self.checked, self.faults, end, at = struct.unpack(">QQIIIIII", body[:40])
        self.end = self.ENDS.get(end, f"read {at}")
        self.first = [it for (it,) in struct.iter_unpack(">I", body[40:])]

    def line(self):
        return f"checked {self.checked} faults {self.faults} end {self.end} first {' '.join(map(str, self.first)) or '-'}"
