#!/usr/bin/env python3
"""A node that does nothing but save, without an end, once it has its note: each time a longer one. It
takes the words of fiocut_node."""
import struct
import sys


def main():
    given, said = sys.stdin.buffer, sys.stdout.buffer
    given.read(struct.unpack(">Q", given.read(9)[1:])[0])
    said.write(bytes([73]) + struct.pack(">Q", 1) + b"\0")
    length = 4096
    while True:
        length += 1
        said.write(bytes([65]) + struct.pack(">Q", length) + bytes(length))
        said.flush()


if __name__ == "__main__":
    main()
