#!/usr/bin/env python3
"""`drive ledger`, `ledger-lost` and `ledger-rest`, read from the pages: an independent reading, with
which the proved program is compared. As a program it stands in for `drive`, whose other commands are
those of the program that REAL_DRIVE names."""
import os
import re
import struct
import subprocess
import sys

sys.path.insert(0, os.path.dirname(os.path.realpath(__file__)))

from ledger_bytes import Job, Key, Refused, no_ledger, read_ledger, spelled
from ledger_entries import behind_lost_run, behind_run, expected_by, held_of, held_words, state_in

COMMANDS = ("ledger", "ledger-lost", "ledger-rest")
KINDS = "unwritten filled lost unissued other-run misdirected torn corrupt unread at-rest".split()
BAD_NOTICE, END_OF_INPUT = Refused(94, "BadNotice"), Refused(95, "EndOfInput")


def real(*words, data=b""):
    """Runs the real drive, and returns its status and what it wrote."""
    ran = subprocess.run([os.environ["REAL_DRIVE"], *words], input=data, stdout=subprocess.PIPE)
    return ran.returncode, ran.stdout


def behind_length(data):
    return struct.pack(">I", len(data)) + data


def as_writing(text):
    """The text with its jobs writing, which says the same of their settings and orders. A job that says
    nothing reads in turn."""
    return b"[global]\nrw=write\n" + re.sub(rb"(?m)^(\s*(?:rw|readwrite)\s*=\s*)(rand)?read(\s*)$", rb"\1\2write\3", text)


def job_and_order(text, number):
    """The settings of a job of a text, and the block of each of its writes, by what the real drive
    orders where each is told as done."""
    state = real("write", "1", str(number), data=behind_length(as_writing(text)) + struct.pack(">QQ", 3, 0))[1][-136:]
    job = state_in(state)[0]
    done = b"".join(struct.pack(">QQ", 1, seq) for seq in range(job.total)) + struct.pack(">QQ", 3, 0)
    orders = real("write", "1", str(number), data=behind_length(as_writing(text)) + done)[1]
    heads = [struct.unpack_from(">QQ", orders, at) for at in range(0, len(orders) - 136, 16 + job.bs)]
    if [seq for seq, _ in heads] != list(range(job.total)):
        raise ValueError("the real drive's orders aren't all writes of the job, in their order")
    return job, [block for _, block in heads]


# ---- the blocks of an input, and what is told of them


def blocks_in(data, bs, count):
    """The blocks that came, each its bytes or None, and why no further one did: nothing, END_OF_INPUT
    or BAD_NOTICE."""
    blocks, at = [], 0
    while len(blocks) < count:
        flag = data[at : at + 1]
        if flag == b"\0":
            blocks.append(None)
            at += 1
        elif flag == b"\1" and at + 1 + bs <= len(data):
            blocks.append(data[at + 1 : at + 1 + bs])
            at += 1 + bs
        else:
            return blocks, END_OF_INPUT if flag in (b"", b"\1") else BAD_NOTICE
    return blocks, None


def wanted_words(entry):
    return " or ".join(f"write {write.seq} of run {write.row[0]}" for write in entry)


def unchecked_line(entries):
    """The blocks whose entries ask for nothing, from which to which."""
    text, front = "unchecked", None
    for block, entry in enumerate(entries + [["end"]]):
        if not entry and front is None:
            front = block
        if entry and front is not None:
            text, front = f"{text} {front}-{block - 1}", None
    return text + "\n"


class Check:
    """A check by a ledger under way: the entries behind the run, and what came of the blocks."""

    def __init__(self, key, job, entries, ran=frozenset()):
        self.key, self.job, self.entries, self.ran = key, job, entries, ran
        self.behind, self.lines, self.kinds = list(entries), {}, dict.fromkeys(KINDS, 0)
        self.checked, self.faults, self.unread = 0, [], False
        self.by_map = set()

    def take(self, block, data):
        """A block has come."""
        entry = self.entries[block]
        if not entry:
            return
        if data is None:
            self.unread = True
            self.tell(block, "unread", "")
            return
        self.checked += 1
        self.behind[block] = held_of(entry, block, data)
        if not self.behind[block]:
            self.faults.append(block)
            self.tell(block, "at-rest", data)

    def tell(self, block, kind, data):
        """A line is due of a block: by the map where this run has completed a write to it."""
        if block in self.ran:
            self.by_map.add(block)
            return
        held = f", {held_words(self.key, self.job, data)}" if kind == "at-rest" else ""
        self.lines[block] = f"block {block} {kind}: wants {wanted_words(self.entries[block])}{held}\n"
        self.kinds[kind] += 1

    def take_map(self, text):
        """The lines of a map, of just those blocks to which this run has completed a write."""
        lines = re.findall(r"(?m)^(block (\d+) ([a-z-]+): .*\n)", text)
        if {int(block) for _, block, _ in lines} != self.by_map:
            raise ValueError(f"the map has other lines than of the blocks {self.by_map}")
        for line, block, kind in lines:
            self.lines[int(block)] = line
            self.kinds[kind] += 1

    def answer(self, came, end):
        """All that is written, and the status."""
        text = "".join(self.lines[block] for block in sorted(self.lines)).encode()
        if end is BAD_NOTICE:
            return text + end.line(), 2
        ended = f"read {came}" if end else "whole"
        first = " ".join(map(str, self.faults[:32])) or "-"
        kinds = "".join(f" {kind} {self.kinds[kind]}" for kind in KINDS if self.kinds[kind])
        text += unchecked_line(self.entries).encode()
        text += f"report checked {self.checked} faults {len(self.faults)} end {ended} first {first}{kinds}\n".encode()
        if not end:
            ledger = spelled(self.job.bs, self.behind)
            text += f"ledger {len(ledger)}\n".encode() + ledger
        return text, 2 if end or self.unread else 1 if self.faults else 0


def entries_in(job, ledger):
    """The entries that a ledger of this job's place has. One without bytes asks for nothing."""
    if not ledger:
        return [[] for _ in range(job.blocks)]
    bs, entries = read_ledger(ledger)
    if (bs, len(entries)) != (job.bs, job.blocks):
        raise no_ledger("OtherPlace")
    return entries


def ledger_check(command, key, job, order, state, ledger, data, map_of):
    """The whole answer to a command: what is written, and the status. `map_of` gives the map's text of
    the same state and blocks, and is asked for only where it has lines."""
    entries, ran = entries_in(job, ledger), frozenset()
    if command == "ledger":
        expected = expected_by(key, job, order, state)
        entries = [behind_run(expected, block, entry) for block, entry in enumerate(entries)]
        ran = expected.last.keys()
    elif command == "ledger-lost":
        entries = behind_lost_run(order, entries)
    check = Check(key, job, entries, ran)
    blocks, end = blocks_in(data, job.bs, job.blocks)
    for block, held in enumerate(blocks):
        check.take(block, held)
    if check.by_map:
        check.take_map(map_of())
    return check.answer(len(blocks), end)


# ---- a stand-in for drive


def part(data, at):
    """What stands behind its length, and where it ends."""
    if at + 4 > len(data) or at + 4 + struct.unpack_from(">I", data, at)[0] > len(data):
        raise END_OF_INPUT
    end = at + 4 + struct.unpack_from(">I", data, at)[0]
    return data[at + 4 : end], end


def stand_in(command, words, data):
    """Answers one of the three commands, of which these are the words behind it."""
    status, printed = real("map", *words[:2], *words[2:], data=b"\0\0\0\0")
    if printed == b"bad command\n" or "--unit" in words:
        return b"bad command\n", 2
    server = int(words[3]) if len(words) > 2 else 0
    key = Key(int(words[0]), server, int(words[1]))
    text, at = part(data, 0)
    state, at = part(data, at) if command == "ledger" else (b"", at)
    front = behind_length(text) + behind_length(state)
    status, printed = real("map", *words, data=front)
    if printed.startswith(b"refused"):
        return printed, 2
    ledger, at = part(data, at)
    job, order = job_and_order(text, key.job)
    map_of = lambda: real("map", *words, data=front + data[at:])[1].decode()
    return ledger_check(command, key, job, order, state, ledger, data[at:], map_of)


def main():
    command, words = (sys.argv[1], sys.argv[2:]) if len(sys.argv) > 1 else ("", [])
    if command not in COMMANDS:
        os.execv(os.environ["REAL_DRIVE"], sys.argv)
    try:
        written, status = stand_in(command, words, sys.stdin.buffer.read())
    except Refused as refusal:
        written, status = refusal.line(), 2
    sys.stdout.buffer.write(written)
    sys.stdout.buffer.flush()
    return status


if __name__ == "__main__":
    sys.exit(main())
