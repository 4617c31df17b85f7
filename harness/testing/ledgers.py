"""What was sound stays sound: checks by a ledger, on one machine. What is lost at rest is told, once;
what a ledger isn't of is refused; and nothing is told of a drive that keeps all."""
import os
import pty
import re
import shutil
import subprocess

from nights import written
from trying import BLOCK, HANG, LIAR, QUIET, TARGET, await_text, job, put, read, report, run, run_of, stamp, state_in, tell, tell_has, write
from witness import counted

NEW = re.compile(rb"^run (\d+)\nkept [^\n]*\nledger (\d+)\n\n", re.M)


def taken(path):
    """The run that was taken into a ledger last, and how many bytes its file has for that."""
    found = NEW.search(read(path))
    return (int(found[1]), len(read(path)) - found.end() == int(found[2]) > 0) if found else None


def by(ledger, job_file, target, state, *words, **more):
    """A check by a ledger: its status, and all that it printed and said."""
    return run("check", job_file, target, state, "--ledger", ledger, *words, whole=True, **more)


def wrote(state, *words, target="t"):
    tell(f"a run: {state}", run("write", "two.fio", target, state, *words)[0], 0)


def blocks_of(state, log):
    """The blocks to which a run has ordered a write by its state, by the target's log."""
    issued = counted(state_in(state))[0]
    rows = [line.split() for line in read(log).decode().splitlines()]
    return {int(block) for kind, block, number in rows if kind == "made" and int(number) < issued}


def rested(state, log, *words):
    """A run of few writes, and the blocks to which it has none, not even in flight."""
    env = {"LD_PRELOAD": LIAR, "LIE_TARGET": "/t", "LIE_LOG": os.path.abspath(log)}
    tell(f"a run of few writes: {state}", run("write", "two.fio", "t", state, "--after", "20", *words, env=env)[0], 0)
    return sorted(set(range(64)) - blocks_of(state, log) - set(flying_of(state)))


def flying_of(state):
    """The blocks of the writes that a state of two.fio has in flight: each write's block, by a whole run's log."""
    issued, done = counted(state_in(state))
    return [places()[it] for it in range(issued) if it not in done]


def places():
    """Which block each write of two.fio goes to."""
    if not os.path.exists("places.log"):
        env = {"LD_PRELOAD": LIAR, "LIE_TARGET": "/p", "LIE_LOG": os.path.abspath("places.log")}
        tell("a whole run, whose writes are noted", run("write", "two.fio", "p", "ps", env=env)[0], 0)
    return {int(number): int(block) for _, block, number in (line.split() for line in read("places.log").decode().splitlines())}


def checks_by_ledgers():
    """What no run has written since it was found sound is checked, and its loss is told once, at rest;
    a block that goes back to what it held before is lost, too. The same state is taken once."""
    wrote("monday")
    status, printed, _ = by("L", "two.fio", "t", "monday")
    tell("a ledger that isn't there yet", (status, printed.splitlines()[1:]), (0, [report([])[:-1], "sound: 64 blocks checked, 0 faults; no cut was seen: the machine has not been started since the run"]))
    tell("it is kept, with its run", taken("L"), (run_of("monday"), True))
    monday = read("t")
    rest = rested("tuesday", "tuesday.log")
    tell("some blocks are at rest", len(rest) > 20, True)
    whole = read("t")
    kept = read("L")
    lost, back, torn, flown = rest[0], rest[7], rest[9], next(it for it in sorted(blocks_of("tuesday", "tuesday.log") - set(flying_of("tuesday"))))
    data = bytearray(whole)
    put(data, lost, bytes(BLOCK))
    put(data, back, monday[rest[8] * BLOCK : (rest[8] + 1) * BLOCK])
    put(data, torn, b"torn", 700)
    put(data, flown, monday[flown * BLOCK : (flown + 1) * BLOCK])
    write("t", bytes(data))
    status, printed, _ = by("L", "two.fio", "t", "tuesday", "--dump", "9")
    lines = printed.splitlines()
    dumped = sorted(it for it in os.listdir(".") if it.startswith("tuesday.block-"))
    tell("what is kept of them: of those at rest no write, which would be of another run", [it for it in dumped if ".write-" not in it or f"block-{flown}." not in it], sorted(f"tuesday.block-{it}" for it in (lost, back, torn, flown)))
    first = f"first {' '.join(map(str, sorted((lost, back, torn, flown))))} other-run 1 at-rest 3"
    tell("losses at rest and in flight", (status, lines[-2], lines[-1].split("; ")[0]), (1, f"report checked 64 faults 4 end whole {first}", "faults: 4 of 64 blocks checked: 1 lost in flight, 3 lost at rest (other-run 1, at-rest 3)"))
    of_block = {it.split()[1]: it for it in lines if it.startswith("block ")}
    for block, held in ((lost, "holds zeros"), (back, f"of block {rest[8]} of job 0 of server 0 of run {run_of('monday')}"), (torn, "unknown sectors 1; ")):
        tell_has(f"block {block}, which was at rest", of_block[str(block)], f"block {block} at-rest: wants write ")
        tell_has(f"what block {block} holds", of_block[str(block)], held)
    status, printed, _ = by("L", "two.fio", "t", "tuesday")
    tell("each loss is told once", (status, printed.splitlines()[1]), (0, report([], 60)[:-1]))
    write("t", whole)
    write("L", kept)
    tell("nothing is told of a drive that keeps all", by("L", "two.fio", "t", "tuesday")[0], 0)
    tell("nor by the same state again", by("L", "two.fio", "t", "tuesday")[0], 0)
    picture(rest[0])


def picture(block):
    """On a terminal a block that was lost at rest has a letter of its own."""
    data = bytearray(read("t"))
    put(data, block, bytes(BLOCK))
    write("t", bytes(data))
    ours, theirs = pty.openpty()
    subprocess.run([TARGET, "map", "two.fio", "t", "tuesday", "--ledger", "L"], stdout=theirs, stderr=subprocess.DEVNULL, timeout=HANG)
    os.close(theirs)
    shown = os.read(ours, 65536).decode().replace("\r", "")
    os.close(ours)
    tell("the picture", [at for at, it in enumerate(shown.splitlines()[0][8:]) if it == "A"], [block])
    tell_has("what its letter stands for", shown, "        . sound  A at-rest")


def states_taken_once():
    """A run is taken once: a block whose write in flight had come, and was seen, has to keep it."""
    env = {"LD_PRELOAD": LIAR, "LIE_TARGET": "/t", "LIE_LOG": os.path.abspath("once.log")}
    tell("a run", run("write", "two.fio", "t", "once", "--after", "100", env=env)[0], 0)
    issued, done = counted(state_in("once"))
    flying = [(it, places()[it]) for it in range(issued) if it not in done]
    block = next(block for number, block in flying if any(places()[it] == block for it in done))
    number, last = next(it for it, at in flying if at == block), max(it for it in done if places()[it] == block)
    data, its = bytearray(read("t")), run_of("once")
    put(data, block, stamp(its, 0, number, block))
    write("t", bytes(data))
    tell("a write in flight has come", by("O", "two.fio", "t", "once")[0], 0)
    put(data, block, stamp(its, 0, last, block))
    write("t", bytes(data))
    status, printed, _ = by("O", "two.fio", "t", "once")
    tell("and goes again", (status, f"block {block} at-rest: wants write {number} of run {its}, holds write {last} of block {block} " in printed), (1, True))


def earlier_states():
    """A state that was kept before that of the run taken last is refused, and so is one that says no
    moment; by the ledger that was there before nothing is lost."""
    for state in ("first", "second"):
        wrote(state)
    tell("the second is taken", by("E", "two.fio", "t", "second")[0], 0)
    kept = read("E")
    status, printed, said = by("E", "two.fio", "t", "first")
    tell("the first isn't, then", (status, printed, "E knows of a later run" in said, read("E") == kept), (2, "", True, True))
    write("bare", state_in("second"))
    status, printed, said = by("E", "two.fio", "t", "bare")
    tell("nor a state alone", (status, printed, "doesn't say when it was kept" in said), (2, "", True))
    tell("a full pass of the run that was taken last", (by("E", "two.fio", "t", "-", "--run", str(run_of("second")))[0], taken("E")[0]), (0, run_of("second")))
    wrote("third")
    status, printed, _ = by("E", "two.fio", "t", "-", "--run", str(run_of("third")))
    tell("a full pass of a later one", (status, taken("E")), (0, (run_of("third"), True)))
    tell("whose state is then taken no second time", by("E", "two.fio", "t", "third")[0], 0)
    status, printed, said = by("E", "two.fio", "t", "second")
    tell("and none of before it", (status, printed, "E knows of a later run" in said), (2, "", True))


def lost_runs():
    """A run whose state was lost has to be taken as such: then nothing is asked of what it may have
    written, and else good blocks would be called lost."""
    wrote("seen")
    tell("a check", by("R", "two.fio", "t", "seen")[0], 0)
    env = {**os.environ, "LD_PRELOAD": LIAR, "LIE_TARGET": "/t", "LIE": "stalled:50", "LIE_LOG": os.path.abspath("gone.log")}
    write("gone.log", "")
    ran = subprocess.Popen([TARGET, "write", "two.fio", "t", "gone"], env=env, **QUIET)
    await_text("gone.log", "stalled")
    ran.kill()
    ran.wait()
    tell("it left no state", os.path.exists("gone"), False)
    shutil.copy("R", "untaken")
    status, printed, _ = by("R", "two.fio", "t", "-", "--lost")
    tell("it is taken as lost", (status, printed.splitlines()[-1]), (3, "no verdict: by that ledger no block had to hold anything"))
    rested("next", "next.log")
    status, printed, _ = by("R", "two.fio", "t", "next")
    tell("the next run", (status, " faults 0 " in printed), (0, True))
    status, printed, _ = by("untaken", "two.fio", "t", "next")
    tell_has("and where the lost run isn't taken, whose writes those are is said", printed, ": if it wrote there since, it has to be taken into the ledger first, without its state by --lost")
    job("part.fio", blocks=16, writes=32)
    for words, why in ((("-", "--lost"), "this wants --ledger"), (("seen", "--ledger", "R", "--lost"), "- for the state"), (("seen", "--ledger", "R", "--unit", "512"), "by whole blocks")):
        status, printed, said = run("check", "two.fio", "t", *words)
        tell(f"{words}", (status, printed, why in said), (2, "", True))


def refused_ledgers():
    """A damaged ledger, one of another drive, region or block size, and what is none, are refused before
    the target is read; and so are the places where none is kept."""
    wrote("s")
    tell("a check", by("L", "two.fio", "t", "s")[0], 0)
    kept, log = read("L"), os.path.abspath("reads.log")
    env = {"LD_PRELOAD": LIAR, "LIE_TARGET": "/t", "LIE_READS": "1", "LIE_LOG": log}

    def refused(what, words, why, as_it_was="L", **more):
        write("reads.log", "")
        before = read(as_it_was) if os.path.isfile(as_it_was) else None
        status, printed, said = run(*words, env={**env, **more}, whole=True)
        tell(what, (status, printed, why in said or said, read("reads.log"), before is None or read(as_it_was) == before), (2, "", True, b"", True))

    check = ("check", "two.fio", "t", "s", "--ledger")
    for at in (*range(0, 40, 3), *range(40, len(kept), len(kept) // 16), len(kept) - 1):
        write("harmed", kept[:at] + bytes([kept[at] ^ 1]) + kept[at + 1 :])
        refused(f"a flipped bit in byte {at}", (*check, "harmed"), "aren't those that were kept" if at > 20 else "", "harmed")
    for length in (0, 10, 100, len(kept) - 1):
        refused(f"the first {length} bytes", (*check, written("short", kept[:length])), "", "short")
    write("letter", b"Dear all,\n")
    for place, why in (("letter", "it holds what is no ledger"), ("t", "it is the target"), ("two.fio", "it is the job file"), ("s", "it is the state's file"), ("/dev/null", "it is no file"), (".", "it is no file")):
        refused(f"a ledger at {place}", (*check, place), why, place)
    shutil.copy("t", "t2")
    refused("the ledger of another drive", ("check", "two.fio", "t2", "-", "--run", str(run_of("s")), "--ledger", "L"), "the ledger of another drive", LIE_TARGET="/t2")
    refused("the state of another drive", ("check", "two.fio", "t2", "s", "--ledger", "L"), "the run wrote to another drive", LIE_TARGET="/t2")
    tell("with --other-drive it is taken", by("L", "two.fio", "t2", "s", "--other-drive")[0], 0)
    write("L", kept)
    regions = (("part.fio", {"blocks": 32, "writes": 64}, ()), ("half.fio", {"blocks": 128, "writes": 128, "block_size": 2048}, ()), ("two.fio", {"writes": 128}, ("--offset", "4096")), ("two.fio", {"writes": 128}, ("--stride", "8192")))
    for job_file, more, words in regions:
        job(job_file, **more)
        refused(f"the ledger of another region: {job_file} {words}", ("check", job_file, "t", "-", "--run", "5", *words, "--ledger", "L"), "the ledger of another region")
    tell("a ledger that is as it was", by("L", "two.fio", "t", "s")[0], 0)


def flushed_before_a_check():
    """A check by a ledger has the target flushed before it reads, once; where that fails it reads nothing,
    and the ledger stays."""
    wrote("s")
    log = os.path.abspath("flushed.log")
    env = {"LD_PRELOAD": LIAR, "LIE_TARGET": "/t", "LIE_READS": "1", "LIE_SYNCS": "1", "LIE_LOG": log}
    tell("a check by a ledger", by("F", "two.fio", "t", "s", env=env)[0], 0)
    lines = read("flushed.log").decode().splitlines()
    tell("the target is flushed before it is read", (lines[:2], f"synced {os.path.abspath('t')}" in lines[1:]), ([f"synced {os.path.abspath('t')}", "read /t"], False))
    tell("the ledger is on the disk before its name is, and the name behind that", lines[-2:], [f"synced {os.path.abspath('F.new')}", f"synced {os.getcwd()}"])
    write("flushed.log", "")
    tell("a check without one", run("check", "two.fio", "t", "s", env=env)[0], 0)
    tell("has nothing flushed", "synced" in read("flushed.log").decode(), False)
    write("flushed.log", "")
    before = read("F")
    status, printed, said = by("F", "two.fio", "t", "s", env={**env, "LIE_SYNC_FAILS": "1"})
    tell("a flush that fails", (status, printed, "t: it can't be flushed: Input/output error" in said, "read" in read("flushed.log").decode(), read("F") == before), (2, "", True, False, True))


def whole_reports():
    """A ledger is kept where there is a report of the whole region, behind that, and else the one before it
    stands; one that can't be kept is said."""
    wrote("s")
    tell("a check", by("L", "two.fio", "t", "s")[0], 0)
    rested("n", "n.log")
    kept = read("L")
    for what, text, last, why in (
        ("its input ends early", 'head -c 200000 | "$REAL" "$@"', "not checked whole", "the one before it stands"),
        ("its output ends within the ledger", '"$REAL" "$@" | head -c -9', "", "it ended within its ledger"),
        ("it is killed", '"$REAL" "$@" >/dev/null; kill -KILL $$', "", "it was killed"),
        ("it refuses", "cat >/dev/null; echo refused 101 Damaged; exit 2", "not checked whole", "the one before it stands"),
    ):
        write("own-drive", f'#!/bin/sh\ncase $1 in wanted*) exec "$REAL" "$@" ;; esac\n{text}\n')
        os.chmod("own-drive", 0o755)
        status, printed, said = by("L", "two.fio", "t", "n", env={"DRIVE": os.path.abspath("own-drive"), "REAL": os.environ["DRIVE"]})
        tell(f"a drive: {what}", (status, last in printed, why in said, read("L") == kept), (2, True, True, True))
    tell("and then it is taken", (by("L", "two.fio", "t", "n")[0], taken("L")[0]), (0, run_of("n")))
    long = "l" * 253
    status, printed, said = by(long, "two.fio", "t", "n")
    tell("a ledger that can't be kept", (status, "sound: " in printed, f"{long}: File name too long" in said), (2, True, True))
    env = {"LD_PRELOAD": LIAR, "LIE_TARGET": "/t", "LIE_UNREADABLE": str(5 * BLOCK)}
    status, printed, _ = by("L", "two.fio", "t", "n", env=env)
    tell("a block that can't be read", (status, " unread 1" in printed, ": 0 lost in flight, 0 lost at rest, 1 unread (unread 1)" in printed), (1, True, True))
    status, printed, _ = by("L", "two.fio", "t", "n")
    tell("is asked for again", (status, printed.splitlines()[1].split(" faults")[0]), (0, "report checked 64"))


def older_drives():
    """A `drive` that takes no ledgers is told as that, and nothing is read; without one it checks."""
    wrote("s")
    write("old-drive", '#!/bin/sh\ncase $1 in ledger*) echo "bad command"; exit 2 ;; esac\nexec "$REAL" "$@"\n')
    os.chmod("old-drive", 0o755)
    env = {"DRIVE": os.path.abspath("old-drive"), "REAL": os.environ["DRIVE"]}
    status, printed, said = by("L", "two.fio", "t", "s", env=env)
    tell("an old drive", (status, printed, "`drive` is older than this harness" in said, os.path.exists("L")), (2, "", True, False))
    tell("without a ledger", run("check", "two.fio", "t", "s", env=env)[0], 0)
