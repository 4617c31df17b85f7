#!/usr/bin/env python3
"""A node that writes down, in the file that LOG names, each record that it is given: its kind and its
body, in hexadecimal; and once, behind its note, or with AT behind the first record of that kind, says
what the file that SAYS names holds. It takes the words of fiocut_node."""
import os
import struct
import sys

NOTE, ENDED = 1, 73


def main():
    given, said = sys.stdin.buffer, sys.stdout.buffer
    says, due = os.environ.get("SAYS"), int(os.environ.get("AT", NOTE))
    with open(os.environ["LOG"], "a", encoding="ascii", buffering=1) as log:
        while len(head := given.read(9)) == 9:
            body = given.read(struct.unpack(">Q", head[1:])[0])
            log.write(f"{head[0]} {body.hex()}\n")
            said.write(bytes([ENDED]) + struct.pack(">Q", 1) + b"\0")
            if says and head[0] == due:
                with open(says, "rb") as it:
                    said.write(it.read())
                says = None
            said.flush()


if __name__ == "__main__":
    main()
