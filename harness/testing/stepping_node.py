#!/usr/bin/env python3
"""A node that says behind its note what the file `NAME.says` has, and once there is a file `NAME.then`
what that has; NAME stands in the environment. It writes down in `NAME.log` each record that it is given:
its kind and its body, in hexadecimal. It takes the words of fiocut_node."""
import os
import struct
import sys
import threading
import time

ENDED = bytes([73]) + struct.pack(">Q", 1) + b"\0"
NAME = os.environ["NAME"]


def say(path):
    while not os.path.exists(path):
        time.sleep(0.002)
    with open(path, "rb") as it:
        sys.stdout.buffer.write(it.read())
    sys.stdout.buffer.flush()


def say_both():
    say(f"{NAME}.says")
    say(f"{NAME}.then")


def main():
    given = sys.stdin.buffer
    with open(f"{NAME}.log", "a", encoding="ascii", buffering=1) as log:
        while len(head := given.read(9)) == 9:
            body = given.read(struct.unpack(">Q", head[1:])[0])
            log.write(f"{head[0]} {body.hex()}\n")
            if head[0] == 1:
                sys.stdout.buffer.write(ENDED)
                sys.stdout.buffer.flush()
                threading.Thread(target=say_both, daemon=True).start()


if __name__ == "__main__":
    main()
