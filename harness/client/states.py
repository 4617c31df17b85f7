"""The verify states that a client's note keeps: whose each is, and what it says of its job."""
import struct


class State:
    """A state, by its bytes in layout 2."""

    def __init__(self, data):
        self.data = data
        self.run, self.server, self.job = struct.unpack(">QII", data[4:20])
        self.block_size, self.blocks, self.total = struct.unpack(">IIQ", data[24:40])
        self.issued = struct.unpack(">Q", data[56:64])[0]
        floor, *marks = struct.unpack(">5Q", data[96:136])
        self.done = floor + sum(bin(it).count("1") for it in marks)


def states_in(note):
    """Returns the states of a note, by run, server and job."""
    at, found = {b"FCC2": 32, b"FCC1": 24}.get(note[:4], len(note)), {}
    while at + 4 <= len(note):
        length = struct.unpack(">I", note[at : at + 4])[0]
        data = note[at + 4 : at + 4 + length]
        if data[:4] == b"FCV2":
            state = State(data)
            found[state.run, state.server, state.job] = state
        at += 4 + length
    return found
