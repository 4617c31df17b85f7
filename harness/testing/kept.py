"""What is kept, in which order, and what stands there where it couldn't be: the states of runs, where
their blocks lie, and the lines of a series."""
import os
import subprocess

from trying import LIAR, QUIET, WITNESS, await_text, job, read, run, run_of, tell, tell_has, whole_run, write
from witness import ALL_OF_TWO, KILL, KILL_TOLD, cycles_in, link, until_told, witness

SYNCS = {"LD_PRELOAD": LIAR, "LIE_SYNCS": "1"}


def lines_of(log):
    return read(log).decode().splitlines()


def kept_in_order():
    """That the state before is put aside is on the disk before the first write, and the state before the
    cut."""
    whole_run()
    log = os.path.abspath("aside.log")
    tell("a second run", run("write", "two.fio", "t", "s", env={**SYNCS, "LIE_LOG": log, "LIE_TARGET": "/t"})[0], 0)
    first = next((at for at, line in enumerate(lines_of(log)) if line.startswith("made ")), 0)
    tell("the state before is put aside, and that is kept, before the first write", lines_of(log)[:first], [f"synced {os.getcwd()}"])
    tell("a run with a cut", run("write", "two.fio", "t", "s", "--cut", "cp s at-the-cut")[0], 0)
    tell("the state is kept before the cut", os.path.exists("at-the-cut") and read("at-the-cut") == read("s"), True)


def stopped_witness():
    """A witness that is killed once a write is out leaves no state of its run, and not that of the run
    before in its place."""
    tell("a run", witness("write", "two.fio", "ss", *link("st"))[0], 0)
    before = read("ss")
    env = {**os.environ, "LD_PRELOAD": LIAR, "LIE": "stalled:1", "LIE_TARGET": "/st", "LIE_LOG": os.path.abspath("stopped.log")}
    write("stopped.log", "")
    ran = subprocess.Popen([WITNESS, "write", "two.fio", "ss", *link("st")], env=env, **QUIET)
    await_text("stopped.log", "stalled")
    ran.kill()
    ran.wait()
    tell("the state of the run before is put aside", (os.path.exists("ss"), read("ss.old") == before if os.path.exists("ss.old") else None), (False, True))
    status, printed, said = witness("check", "two.fio", "ss", *link("st"))
    tell("its check", (status, printed, "ss: No such file" in said), (2, "", True))


def killed_behind_flushes():
    """An agent that writes by a ring is killed as soon as what a flush has kept is told: what came to
    the drive behind that flush's front is lost, and nobody was told that it is done."""
    job("flushed.fio", blocks=512, writes=100_000, depth=16)
    for flushes in (1, 2, 5, 20, 60):
        env = {"LD_PRELOAD": LIAR, "LIE": "cached:4096", "LIE_FLUSHES": "1", "LIE_RING": "1", "LIE_DIES": str(flushes), "LIE_TARGET": "/kf"}
        status, printed, _ = witness("write", "flushed.fio", "kf.state", *link("kf", "--flush", "2"), env=env)
        tell(f"killed behind flush {flushes}", (status, "at the cut" in printed), (0, True))
        status, printed, _ = witness("check", "flushed.fio", "kf.state", *link("kf"))
        tell(f"killed behind flush {flushes}: what was told is there", (status, " faults 0 " in printed), (0, True))


OFF = ("--off", KILL_TOLD, "--on", "true", "--every", "0.2..0.2", "--seed", "7", "--trust-off")


def kept_series():
    """Each line of a series is on the disk, and so is that there is such a file; and a cycle of which a
    block can't be read is no sound one."""
    log = os.path.abspath("series.log")
    status, printed, _ = witness("cycle", "long.fio", "series", *link("ct"), *OFF, "--cycles", "2", env={**SYNCS, "LIE_LOG": log})
    tell("two cycles", (status, len(cycles_in(printed))), (0, 2))
    lines, file = lines_of(log), os.path.abspath("series/cycles.jsonl")
    behind = [lines[at + 1] for at, line in enumerate(lines[:-1]) if line == f"synced {file}"]
    tell("each line is synced, and its folder behind it", behind, [f"synced {os.path.dirname(file)}"] * 2)
    env = {"LD_PRELOAD": LIAR, "LIE_TARGET": "/cu", "LIE_UNREADABLE": "0"}
    status, printed, said = witness("cycle", "two.fio", "unread", *link("cu"), *OFF, "--off", f"{until_told(calls=ALL_OF_TWO)}; {KILL}", "--cycles", "2", "--keep-going", env=env)
    tell("cycles of which a block can't be read", (status, [it.partition(" checked, ")[2].partition(",")[0] for it in cycles_in(printed)]), (1, ["1 faults: unread 1"] * 2))
    tell_has("which block", said, "block 0 can't be read: Input/output error")
