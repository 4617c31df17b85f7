"""Writes the states that a client's note keeps out into files of their own, as `drive-target check` takes
them: so a fleet that has no verdict any more, as where its mirror is gone, still has one of each job, by
the proved check of one drive (docs/DRIVE.md)."""
import json
import os
import shlex
import time

import texts
from note import KeptNote, Refused, keep_file, last_run
from say import say
from states import states_in

# How the file begins: harness/common/state.c. A stride of 0 says that the command line says where its
# blocks lie, as the one of `fleet-server` did.
MAGIC = b"fiocut state 1\n"
LINES = "run {0.run}\njob {0.job}\nregion offset 0 stride 0 block {0.block_size} blocks {0.blocks}\ndrive -\nboot -\nway -\nkept {1}\ntext {2}\nstate {3}\n\n"
CASTAGNOLI = 0x82F63B78


def sum_of_byte(byte):
    for _ in range(8):
        byte = byte >> 1 ^ CASTAGNOLI * (byte & 1)
    return byte


SUMS = [sum_of_byte(it) for it in range(256)]


def sum_over(data):
    """The checksum CRC32C."""
    total = 0xFFFFFFFF
    for byte in data:
        total = total >> 8 ^ SUMS[(total ^ byte) & 255]
    return total ^ 0xFFFFFFFF


def moment_of(run):
    """The moment that a run's number says, whose scale is parts of a second: so of two states that lie
    beside each other that of the later run has the later one, whichever was written out first."""
    return time.strftime("%Y-%m-%dT%H:%M:%S", time.gmtime(run >> 32)) + f".{(run & 0xFFFFFFFF) * 10**10 >> 32:010d}Z"


def spelled(state, text):
    """The bytes of a state's file."""
    rest = LINES.format(state, moment_of(state.run), len(text), len(state.data)).encode() + text + state.data
    return MAGIC + f"sum {sum_over(rest):08x}\n".encode() + rest


def states_of(path, run):
    """The states of a run, the last one where none is said, by the client's note, and the run."""
    kept = KeptNote(path)
    note = kept.read()
    kept.close()
    run = run or last_run(note or b"")
    states = [it for (of, _, _), it in sorted(states_in(note or b"").items()) if of == run]
    if not states:
        raise Refused(f"{path}: it keeps no state" + (f" of run {run}" if run else ""))
    return run, states


def refuse_other_jobs(job_file, text, states):
    """Refuses a job file that hasn't the jobs of the states."""
    total = texts.Total(text)
    total.await_jobs()
    jobs = {job: (size, blocks) for job, size, blocks in total.jobs}
    for it in states:
        if jobs.get(it.job) != (it.block_size, it.blocks):
            raise Refused(f"{job_file}: the state of server {it.server} job {it.job} isn't of a job of this file")


def write_out(of):
    """Keeps a file for each state of the run, and prints for each the command that checks its target, on
    the machine of its server."""
    run, states = states_of(of.note, of.run)
    text = texts.writing(of.jobfile)
    refuse_other_jobs(of.jobfile, text, states)
    os.makedirs(of.folder, exist_ok=True)
    for it in states:
        path = os.path.join(of.folder, f"run-{run}-server-{it.server}-job-{it.job}.state")
        if os.path.exists(path):
            raise Refused(f"{path}: it is there already")
        keep_file(path, spelled(it, text))
        command = f"drive-target check {shlex.quote(of.jobfile)} TARGET {shlex.quote(path)} --job {it.job}"
        print(json.dumps({"run": run, "server": it.server, "job": it.job, "file": path, "command": command}) if of.json else f"server {it.server} job {it.job}: {command}", flush=True)
    say(f"{len(states)} states of run {run} are in {of.folder}; TARGET is the target of that job at that server, with --offset and --stride, where it has them")
