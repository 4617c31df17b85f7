"""Reads the bytes of a verify state.

Each number has its high byte first. Behind four letters stand whose state it is, the settings of
its job, how many writes were issued, and the generator's place. Behind these layout 1 has a list of
completions; layout 2 has the first number of the last window, and marks from there on.
"""

import struct
from functools import lru_cache
from typing import NamedTuple

from judging.settings import FILLINGS, ORDERS, Settings, place_after
from judging.verdict import require


class State(NamedTuple):
    """A verify state: its key is (run, server, job), `place` that of the generator, and `counted`
    are the completed writes."""

    key: tuple
    settings: Settings
    issued: int
    place: bytes
    counted: frozenset
    spelling: bytes

    def fits(self, key, settings):
        """It is one of this key and job: of a job that writes the same, with no more writes than
        that has, and with the place behind so many."""
        return (self.key == key and self.settings.is_of_job(settings)
                and self.issued <= settings.total
                and self.place == place_after(settings, self.issued))


@lru_cache(maxsize=None)
def read_state(data):
    """The state that bytes say."""
    require(len(data) >= 100 and data[:4] in (b"FCV1", b"FCV2"), "no state")
    key = struct.unpack(">QII", data[4:20])
    settings = read_settings(data[20:56])
    (issued,) = struct.unpack(">Q", data[56:64])
    require(issued <= 1000000, "more than a million writes")
    floor = max(0, issued - settings.window)
    last = read_list(data[96:]) if data[:4] == b"FCV1" else read_marks(data[96:], floor)
    require(all(write < issued for write in last), "a write counts that wasn't issued")
    counted = frozenset(range(floor)) | frozenset(last)
    return State(key, settings, issued, bytes(data[64:96]), counted, bytes(data))


def read_settings(data):
    """The settings that bytes say."""
    order, verify, pattern, zero, *numbers = struct.unpack(">4BIIQQII", data)
    require(order < len(ORDERS) and verify < len(FILLINGS) and zero == 0, "no settings")
    return Settings(ORDERS[order], FILLINGS[verify], pattern, *numbers)


def read_list(data):
    """The writes of a list of completions."""
    (count,) = struct.unpack(">I", data[:4])
    require(len(data) == 4 + 8 * count, "a state of another length")
    return struct.unpack(f">{count}Q", data[4:])


def read_marks(data, floor):
    """The writes that have a mark, each by its distance from the floor."""
    require(len(data) == 40, "a state of another length")
    spelled_floor, *marks = struct.unpack(">5Q", data)
    require(spelled_floor == floor, f"floor {spelled_floor} in place of {floor}")
    return [floor + bit for bit in range(256) if marks[bit // 64] >> (bit % 64) & 1]
