#!/usr/bin/env python3
"""A node that, once it is given a frame or asked to begin, saves 4,096 bytes, sends a frame behind
that, and never ends its answer; to anything else it says no more than an end. It takes the words of fiocut_node; TO is whom the frame is for."""
import os
import struct
import sys

FRAME, BEGIN, SAVE, SEND, ENDED = 2, 7, 65, 66, 73


def main():
    given, said = sys.stdin.buffer, sys.stdout.buffer

    def say(kind, body):
        said.write(bytes([kind]) + struct.pack(">Q", len(body)) + body)
        said.flush()

    while len(head := given.read(9)) == 9:
        given.read(struct.unpack(">Q", head[1:])[0])
        if head[0] in (FRAME, BEGIN):
            say(SAVE, b"S" * 4096)
            say(SEND, b"FC" + bytes([1, 4]) + bytes(4) + struct.pack(">II", int(os.environ["TO"]), 0))
        else:
            say(ENDED, b"\0")


if __name__ == "__main__":
    main()
