"""`drive` without a harness: what it writes for one recorded input, to the byte, by the manual's
layouts."""
import os
import struct
import subprocess

from trying import stamp, tell

RUN, JOB = 258, 2
# Of its three jobs the third has seed 1, since the job's number is added to randseed, and 64 bits
# are kept of the sum.
JOB_FILE = b"""[global]
rw=write
bs=512
size=512
[a]
[b]
[c]
size=1k
io_size=1536
iodepth=2
randseed=18446744073709551615
"""
DONE, FAILED, TAKE = 1, 2, 3
# The first four words of xoshiro256++ by seed 1, as rand_xoshiro gives them: the place of each
# state of sequential writes.
PLACE = (0xCFC5D07F6F03C29B, 0xBF424132963FE08D, 0x19A37D5757AAF520, 0xBF08119F05CD56D6)


def notice(what, number=0):
    return struct.pack(">QQ", what, number)


def order(number, block):
    return struct.pack(">QQ", number, block) + stamp(RUN, JOB, number, block, 512)


def state(issued, floor, word):
    """The state of that job, whose kind 0 is sequential.

    The window of two writes from `floor` on has its bits in the first word.
    """
    front = struct.pack(">4sQIIBBBB", b"FCV2", RUN, 0, JOB, 0, 0, 0, 0)
    fields = struct.pack(">IIQQIIQ", 512, 2, 3, 1, 2, 2, issued)
    return front + fields + struct.pack(">4Q", *PLACE) + struct.pack(">Q4Q", floor, word, 0, 0, 0)


def told(*notices):
    """What `drive write` reads: the job file and these notices."""
    return struct.pack(">I", len(JOB_FILE)) + JOB_FILE + b"".join(notices)


def written(*notices):
    """What `drive write` answers to that: its status, and its bytes."""
    ran = subprocess.run([os.environ["DRIVE"], "write", str(RUN), str(JOB)], input=told(*notices), stdout=subprocess.PIPE)
    return ran.returncode, ran.stdout


def drive_alone():
    """Orders and a state of another run and job than the first ones."""
    first = order(0, 0) + order(1, 1)
    tell("taken before any notice", written(notice(TAKE)), (0, first + state(2, 0, 0)))
    whole = written(notice(DONE, 0), notice(DONE, 2), notice(TAKE))
    tell("taken with a write in flight", whole, (0, first + order(2, 0) + state(3, 1, 2)))
    failed = written(notice(FAILED, 0), notice(DONE, 1), notice(TAKE))
    tell("no order behind a failed write", failed, (0, first + state(2, 0, 2)))
    tell("a notice of a write that wasn't ordered", written(notice(DONE, 2))[0], 2)
