"""Several drives that share one power: a series for each, one cut for all, and what they come to."""
import os
import shlex
import signal
import subprocess

from nights import rows_of
from trying import HANG, LIAR, WITNESS, await_file, await_that, read, run, tell, write
from witness import AGENT, QUIET, cycles_in, endless, until_told, witness

# The cut ends both agents at once, and says so; what gives the power back says that.
OFF = f"echo off >>events; {until_told('agent1')}; {until_told('agent2')}; kill -KILL $(cat agent1) $(cat agent2)"
POWER = ("--off", OFF, "--on", "echo on >>events", "--trust-off", "--seed", "7")


def way(number, target, before=""):
    """The way to the agent of a drive, which writes down when it begins and when it has ended."""
    own = f"echo $$ >agent{number}; exec {shlex.quote(AGENT)} {target}"
    return "--link", f"echo begins {number} >>events; {before}sh -c {shlex.quote(own)}; echo ended {number} >>events"


def events():
    """What was written down since this was asked last."""
    lines = read("events").decode().splitlines() if os.path.exists("events") else []
    write("events", "")
    return lines


def lines_of(printed, number):
    """What was printed of a drive, without its name."""
    front = f"drive {number}: "
    return [it.removeprefix(front) for it in printed.splitlines() if it.startswith(front)]


def one_cut_for_all():
    """Two drives write when the power is cut, once a cycle; a cut waits for the slower one's link and for
    its check."""
    endless()
    events()
    words = ("cycle", "endless.fio", "pair", *way(1, "p1"), *way(2, "p2", "sleep 0.4; "), *POWER, "--every", "0.2..0.3")
    status, printed, _ = witness(*words, "--cycles", "3")
    tell("two drives", (status, printed.splitlines()[-1:]), (0, ["sound: drive 1, 2"]))
    cycle = ["off", *["ended"] * 2, "on", *["begins", "ended"] * 2]
    seen = [it.split()[0] for it in events()]
    turns = " ".join(seen).split("off")
    tell("a cut for both, and none within a check", (len(turns), [sorted(it.split()) for it in turns[1:-1]]), (4, [sorted([*cycle[1:], *["begins"] * 2])] * 2))
    for number in (1, 2):
        rows = rows_of(f"pair/{number}")
        tell(f"the series of drive {number}", [(it["drive"], it["cut"], it["faults"], it["checked"] > 0) for it in rows], [(number, "word", 0, True)] * 3)
        tell("its lines", [len(cycles_in("\n".join(lines_of(printed, number)))), lines_of(printed, number)[3].split(":")[0]], [3, "sound"])
    moments = [[it["cut_after"] for it in rows_of(f"pair/{it}")] for it in (1, 2)]
    tell("the same moments", moments[0] == moments[1], True)
    tell("a series that is there already", witness(*words, "--cycles", "4")[0], 2)
    status, printed, _ = witness(*words, "--cycles", "4", "--resume")
    tell("which is resumed", (status, events()[0], [len(rows_of(f"pair/{it}")) for it in (1, 2)]), (0, "on", [4, 4]))
    tell("several links and one write", witness("write", "endless.fio", "several.state", *way(1, "p1"), *way(2, "p2"))[0], 2)


def one_of_them():
    """Faults of one drive, or a series that can't go on, are in the last line and in the status, whatever
    the others come to; without --keep-going all end behind that cycle."""
    endless()
    lies = f"LD_PRELOAD={shlex.quote(LIAR)} LIE=lost:3 LIE_TARGET=/l2 "
    words = ("cycle", "endless.fio", *POWER, "--every", "0.2..0.3", "--cycles", "2")
    for name, more, cycles in (("stops", (), 1), ("goes", ("--keep-going",), 2)):
        status, printed, _ = witness(*words[:2], name, *way(1, "l1"), *way(2, "l2", lies), *words[2:], *more)
        tell(f"a drive that lies: it {name}", (status, printed.splitlines()[-1]), (1, "faults: drive 2; sound: drive 1"))
        tell("so many cycles", [len(rows_of(f"{name}/{it}")) for it in (1, 2)], [cycles] * 2)
    gone = ("--link", "sleep 0.1; true")
    for name, more, cycles in (("waits", (), 1), ("leaves", ("--keep-going",), 2)):
        status, printed, said = witness(*words[:2], name, *way(1, "l1"), *gone, *words[2:3], f"{until_told('agent1')}; kill -KILL $(cat agent1)", *words[4:], "--wait", "10", *more)
        tell(f"a drive that isn't there: the other {name}", (status, printed.splitlines()[-1], "drive-witness 2: " in said), (2, "not checked whole: drive 2; sound: drive 1", True))
        tell("so many cycles of the other", len(rows_of(f"{name}/1")), cycles)


def stopped_series():
    """SIGINT has each drive's state kept, without a cut, and so has the end of who cuts; a series goes on
    from there."""
    endless()
    events()
    words = [WITNESS, "cycle", "endless.fio", "stopped", *way(1, "s1"), *way(2, "s2"), *POWER, "--every", "60..60", "--cycles", "2"]
    for what, number, status in (("SIGINT", signal.SIGINT, 3), ("SIGKILL", signal.SIGKILL, -9)):
        for it in ("s1", "s2"):
            if os.path.exists(it):
                write(it, b"")
        ran = subprocess.Popen([*words, *(["--resume"] if what == "SIGKILL" else [])], **QUIET)
        await_that(lambda: all(os.path.exists(it) and any(read(it)) for it in ("s1", "s2")), "a write of both")
        ran.send_signal(number)
        tell(f"{what}: the status", ran.wait(HANG), status)
        kept = [f"stopped/{it}/cycle-000001.stopped" for it in (1, 2)]
        for it in kept:
            await_file(it)
            tell(f"{what}: no false fault", run("check", "endless.fio", f"s{it.split('/')[1]}", it)[0], 0)
            os.remove(it)
    tell("no cut was made", "off" in events(), False)
