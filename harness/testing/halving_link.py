"""A link to a mirror, halving_link.py COMMAND, that loses half of the copies: those of the jobs of odd
numbers, and at each second start in a folder those of the others."""
import os
import struct
import subprocess
import sys

HERE = os.path.dirname(os.path.realpath(__file__))
sys.dont_write_bytecode = True
sys.path.insert(0, f"{HERE}/../client")

from queries import is_answer
from records import COPY, FRAME_HEAD, enveloped, read_frame


def job_in(copy):
    """The number of the job whose state a copy has."""
    return struct.unpack(">QII", copy[FRAME_HEAD + 4 : FRAME_HEAD + 20])[2]


def main(command):
    with open("starts", "ab") as it:
        it.write(b".")
    lost = os.path.getsize("starts") % 2
    link = subprocess.Popen(command, shell=True, stdout=subprocess.PIPE)
    while frame := read_frame(link.stdout):
        if is_answer(frame) or frame[3] != COPY or job_in(frame) % 2 != lost:
            sys.stdout.buffer.write(enveloped(frame))
            sys.stdout.buffer.flush()


if __name__ == "__main__":
    main(*sys.argv[1:])
