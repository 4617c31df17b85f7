"""Stands for a server behind a link, standing_server.py COMMAND: it welcomes whoever says hello, takes
all jobs to fit, and runs the command as the first frame of a node comes."""
import os
import subprocess
import sys

HERE = os.path.dirname(os.path.realpath(__file__))
sys.dont_write_bytecode = True
sys.path.insert(0, f"{HERE}/../client")

from queries import FIT, QUERY_FIT, QUERY_HELLO, is_answer, query, welcome
from records import enveloped, read_frame


def main(command):
    def say(answer):
        sys.stdout.buffer.write(enveloped(answer))
        sys.stdout.buffer.flush()

    while frame := read_frame(sys.stdin.buffer):
        if not is_answer(frame):
            subprocess.run(command, shell=True)
            break
        if frame[3] == QUERY_HELLO:
            say(welcome(0, 1))
        elif frame[3] == QUERY_FIT:
            say(query(FIT))
    sys.stdin.buffer.read()


if __name__ == "__main__":
    main(*sys.argv[1:])
