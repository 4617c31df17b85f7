"""Reads the bytes of a frame: what one node sends to another.

Each number has its high byte first. A frame is a header of 16 bytes and a body: the letters FC,
version 1, the kind, the nodes from and to, and how long the body is. A body is the numbers of its
kind, and behind them a text, a state or a list of blocks. Nothing is known here of how nodes work.
"""

import struct
from typing import NamedTuple, Optional

from judging.states import State, read_state
from judging.verdict import require


class Report(NamedTuple):
    """A report of a check: `first` are the first faulty blocks, at most 32."""

    checked: int
    faults: int
    end: str
    first: tuple

    def __str__(self):
        first = " ".join(str(block) for block in self.first) or "-"
        return f"checked {self.checked} faults {self.faults} end {self.end} first {first}"


class Frame(NamedTuple):
    """What a frame says. Nodes are as they are printed: a server's number, client, or mirror."""

    kind: str
    source: str
    target: str
    fields: dict
    state: Optional[State]
    report: Optional[Report]


NODES = [str(number) for number in range(8)] + ["client", "mirror"]

# The number of each kind: its name, the widths of its numbers, and what these are.
KINDS = {
    1: ("Jobs", ">Q", "run"),
    2: ("JobsOk", ">QI", "run jobs"),
    3: ("Start", ">Q", "run"),
    4: ("Started", ">Q", "run"),
    5: ("Trigger", ">QB", "run act"),
    6: ("State", ">I", "jobs"),
    7: ("NoState", ">QII", "run job jobs"),
    8: ("StateAck", ">QI", "run job"),
    9: ("Stop", ">Q", "run"),
    10: ("Stopped", ">Q", "run"),
    11: ("Verify", ">QQ", "run attempt"),
    12: ("WantState", ">QQI", "run attempt job"),
    13: ("Saved", ">Q", "attempt"),
    14: ("NoSaved", ">QQI", "run attempt job"),
    15: ("Report", ">QQIIBIIII", "run attempt job jobs end at checked faults listed"),
    16: ("Refused", ">BBIIQQQ", "asked reason job jobs run attempt value"),
    17: ("Piece", ">BQQIIII", "whole run number server job length at"),
    18: ("Copy", ">", ""),
    19: ("CopyOk", ">QII", "run server job"),
    20: ("Fetch", ">Q", "generation"),
    21: ("Granted", ">Q", "generation"),
}
WITH_A_STATE = ("State", "Saved", "Copy")
WITH_ANY_REST = ("Jobs", "Verify", "Piece")


def read_frame(data):
    """The frame that bytes say."""
    require(len(data) >= 16 and data[:3] == b"FC\x01", "no header")
    kind_number, source, target, length = struct.unpack(">BIII", data[3:16])
    body = data[16:]
    require(kind_number in KINDS, f"kind {kind_number}")
    require(source < len(NODES) and target < len(NODES), "no such node")
    require(length == len(body), f"a body of {length} bytes has {len(body)}")
    kind, widths, names = KINDS[kind_number]
    size = struct.calcsize(widths)
    require(len(body) >= size, "a body that is too short")
    fields = dict(zip(names.split(), struct.unpack(widths, body[:size])))
    rest = body[size:]
    state = read_state(rest) if kind in WITH_A_STATE else None
    report = read_report(fields, rest) if kind == "Report" else None
    if not state and not report and kind not in WITH_ANY_REST:
        require(not rest, "bytes behind the body")
    return Frame(kind, NODES[source], NODES[target], fields, state, report)


def read_report(fields, rest):
    """The report that the numbers of a body say, with the blocks behind them."""
    require(len(rest) == 4 * fields["listed"], "a list of another length")
    require(fields["end"] < 3, "no such end")
    end = ("whole", "fault", f"read {fields['at']}")[fields["end"]]
    first = struct.unpack(f">{fields['listed']}I", rest)
    return Report(fields["checked"], fields["faults"], end, first)
