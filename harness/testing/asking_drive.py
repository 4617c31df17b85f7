#!/usr/bin/env python3
"""Stands in for a `drive` that says which blocks a check goes by, where REAL_DRIVE names one that can't: a block is
one of these where `drive ledger` tells it as unread of a region of which nothing can be read. All other
commands are those of REAL_DRIVE."""
import os
import re
import subprocess
import sys

BY = {"wanted": "ledger", "wanted-lost": "ledger-lost", "wanted-rest": "ledger-rest"}
MOST_BLOCKS = 65536


def blocks_in(line):
    """The blocks that a line of unchecked ones names."""
    for first, _, last in (it.partition("-") for it in line.split()[1:]):
        yield from range(int(first), int(last or first) + 1)


def bits_in(printed):
    """The bits of the blocks that are told as unread."""
    told, unchecked = printed[: printed.index("report ")].splitlines(), ()
    if told and told[-1].startswith("unchecked"):
        unchecked = [*blocks_in(told.pop())]
    wanted = [int(it.split()[1]) for it in told]
    bits = bytearray((len(wanted) + len(unchecked) + 7) // 8)
    for block in wanted:
        bits[block // 8] |= 1 << block % 8
    return bytes(bits)


def main():
    if len(sys.argv) < 2 or sys.argv[1] not in BY:
        os.execv(os.environ["REAL_DRIVE"], sys.argv)
    ran = subprocess.run([os.environ["REAL_DRIVE"], BY[sys.argv[1]], *sys.argv[2:]], input=sys.stdin.buffer.read() + bytes(MOST_BLOCKS), stdout=subprocess.PIPE)
    printed = ran.stdout.decode(errors="replace")
    if not re.search("^report ", printed, re.M):
        sys.stdout.write(printed)
        return 2
    sys.stdout.buffer.write(bits_in(printed))
    return 0


if __name__ == "__main__":
    sys.exit(main())
