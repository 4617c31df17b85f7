"""Writes that fail or never come back, and programs that are killed."""
import os
import random
import re
import signal
import subprocess
import time

from trying import HANG, LIAR, QUIET, TARGET, await_file, await_text, await_that, comes, job, read, run, skip, tell, tell_has, whole_run, write


# Has the liar's own io_uring in the place of none.
RING = {"LIE_RING": "1"}


def failures():
    """Writes that fail, by threads, by a ring and, in memory, by threads in turns."""
    env = {"LD_PRELOAD": LIAR, "LIE_TARGET": "/failing"}
    for depth, options, ring in ((8, (), {}), (8, (), RING), (32, ("--cached",), {})):
        job("fail.fio", blocks=64, writes=512, depth=depth)
        for lie in ("failed:100", "doubtful:100", "short:100"):
            what = " ".join((lie, *options, *ring))
            status, printed, said = run("write", "fail.fio", "failing", "fs", *options, env={**env, **ring, "LIE": lie})
            tell(f"{what}: the status", status, 2)
            block = re.search(r"failing: write \d+ to block (\d+) failed: ", said)
            tell(f"{what}: which write it was", bool(block), True)
            tell_has(f"{what}: the state", said, "the state was taken there: fs")
            torn = [block[1]] if block and lie.startswith("short") else []
            _, printed, _ = run("check", "fail.fio", "failing", "fs")
            tell_has(f"{what}: no other fault", printed, f"faults {len(torn)} end whole first {' '.join(torn) or '-'}")
            os.remove("failing")
        stalled(options, ring)
    held_back()


def failed_flushes():
    """A flush that fails, by threads, by a ring and by threads in turns: what was written before it
    isn't told as done, and the drive, which has lost it, isn't blamed."""
    env = {"LD_PRELOAD": LIAR, "LIE_TARGET": "/flushed", "LIE": "cached:4096", "LIE_FLUSHES": "1", "LIE_FLUSH_FAILS": "5"}
    job("flush.fio", blocks=512, writes=512)
    for options, ring in ((("--flush", "8"), {}), (("--flush", "8"), RING), (("--flush", "8", "--cached"), {})):
        what = " ".join((*options, *ring))
        status, printed, said = run("write", "flush.fio", "flushed", "fs", *options, env={**env, **ring})
        tell(f"{what}: the status", status, 2)
        tell_has(f"{what}: why", said, "Input/output error")
        status, printed, _ = run("check", "flush.fio", "flushed", "fs")
        tell(f"{what}: no false fault, and some was checked", (status, "faults 0 end whole" in printed, int(printed.split()[2]) >= 8), (0, True, True))
        os.remove("flushed")


def held_back():
    """Of a target from which no write comes back so many are at it as --queue says, and never more than
    the depth."""
    job("fail.fio", blocks=64, writes=512)
    for queue, due in ((1, 1), (3, 3), (64, 8)):
        env = {**os.environ, "LD_PRELOAD": LIAR, "LIE_TARGET": "/failing", "LIE": "stalled:1", "LIE_LOG": os.path.abspath("log")}
        if os.path.exists("log"):
            os.remove("log")
        ran = subprocess.Popen([TARGET, "write", "fail.fio", "failing", "fs", "--queue", str(queue)], env=env, **QUIET)
        await_file("log")
        comes(lambda: len(read("log").splitlines()) >= due)
        time.sleep(0.2)
        tell(f"writes at the target with --queue {queue}", len(read("log").splitlines()), due)
        ran.terminate()
        tell(f"SIGTERM with --queue {queue}: the status", ended(ran, HANG), 0)


def stalled(options, ring):
    """A write that never comes back keeps neither the state nor the cut."""
    if options and len(os.sched_getaffinity(0)) < 2:
        return skip("two processors", "a write that never comes back, with --cached: one processor writes one at once")
    env = {**os.environ, **ring, "LD_PRELOAD": LIAR, "LIE_TARGET": "/failing", "LIE": "stalled:50", "LIE_LOG": os.path.abspath("stalled.log")}
    for what, words in (("SIGTERM", []), ("a cut", ["--after", "45", "--cut", "touch cut-at-once"])):
        write("stalled.log", "")
        ran = subprocess.Popen([TARGET, "write", "fail.fio", "failing", "fs", *options, *words], env=env, **QUIET)
        what = " ".join((what, *options, *ring))
        if not words:
            await_text("stalled.log", "stalled")
            ran.terminate()
        tell(f"a write that never comes back, and {what}: the status", ended(ran, HANG), 0)
        _, printed, _ = run("check", "fail.fio", "failing", "fs")
        tell_has(f"a write that never comes back, and {what}: the check", printed, "faults 0 end whole first -")
    tell("the power was cut while it was out", os.path.exists("cut-at-once"), True)
    os.remove("cut-at-once")


def ended(ran, seconds):
    """The status of a process that ends within so many seconds; else it is killed, and has none."""
    try:
        return ran.wait(seconds)
    except subprocess.TimeoutExpired:
        ran.kill()
        ran.wait()
        return None


def kills():
    """Who writes is killed at random moments, and the check has no false fault. In memory a job lasts
    as long by so many more writes."""
    job("deep.fio", blocks=4096, writes=1_000_000, depth=32)
    killed_writers("long.fio", 50)
    killed_writers("deep.fio", 30, "--cached")
    threads()


def killed_writers(job_file, turns, *options):
    """Kills who writes so many times: in every second turn once its state is there."""
    chance, states = random.Random(1), 0
    for turn in range(turns):
        for file in ("ks", "ks.old", "trigger"):
            if os.path.exists(file):
                os.remove(file)
        write("ks", "FCV of an earlier run")
        ran = subprocess.Popen([TARGET, "write", job_file, "killed", "ks", "--trigger", "trigger", *options], **QUIET)
        await_file("ks.old")
        time.sleep(chance.uniform(0.01, 0.15))
        write("trigger", "")
        if turn % 2: # as soon as its state is there, and else at any moment
            await_file("ks")
        else:
            time.sleep(chance.uniform(0, 0.04))
        ran.kill()
        ran.wait()
        if os.path.exists("ks"):
            states += 1
            status, printed, _ = run("check", job_file, "killed", "ks")
            tell(f"{job_file}, killed, turn {turn}", (status in (0, 3), "faults 0 end whole first -" in printed), (True, True))
    tell(f"{job_file}: states were kept before a kill", states >= turns // 2, True)


def threads():
    """In memory two threads take turns where there are as many processors, and on one there is but
    one; besides it the one that waits for the state, and the one that looks for a trigger."""
    for options, due in (((), 2 + min(2, len(os.sched_getaffinity(0)))), (("--cpu", "0"), 3)):
        env = {**os.environ, "LD_PRELOAD": LIAR, "LIE_TARGET": "/killed", "LIE": "slow:50"} # (so none ends by itself)
        ran = subprocess.Popen([TARGET, "write", "deep.fio", "killed", "ks", "--cached", *options], env=env, **QUIET)
        count = lambda: len(os.listdir(f"/proc/{ran.pid}/task"))
        tell(f"how many threads there are, {options}", (comes(lambda: count() == due), count()), (True, due))
        ran.terminate()
        tell(f"SIGTERM, {options}: the status", ended(ran, HANG), 0)
        _, printed, _ = run("check", "deep.fio", "killed", "ks")
        tell_has(f"SIGTERM, {options}: the check", printed, "faults 0 end whole first -")


def processors(pid):
    """Those that a process and its threads may run on, as the system has it."""
    found = set()
    for it in os.listdir(f"/proc/{pid}/task"):
        with open(f"/proc/{pid}/task/{it}/status", encoding="ascii") as status:
            found |= {line.split()[1] for line in status if line.startswith("Cpus_allowed_list")}
    return found


def killed_drive():
    """`drive` is killed, and a second harness comes. Both run on one processor, as is asked for."""
    job("longest.fio", blocks=4096, writes=1_000_000)
    ran = subprocess.Popen([TARGET, "write", "longest.fio", "alone", "as", "--cpu", "0"], stdout=subprocess.PIPE, stderr=subprocess.PIPE, text=True)
    await_that(lambda: os.path.exists("alone") and any(read("alone")), "a write")
    status, _, said = run("write", "long.fio", "alone", "as2")
    tell("a second harness", (status, "another harness" in said), (2, True))
    children = subprocess.run(["pgrep", "-P", str(ran.pid)], capture_output=True, text=True).stdout.split()
    tell("on one processor", [processors(it) for it in (ran.pid, *children)], [{"0"}, {"0"}])
    for it in children:
        os.kill(int(it), signal.SIGKILL)
    _, said = ran.communicate(timeout=HANG)
    tell("drive is killed", (ran.returncode, "it was killed, and there is no state" in said, os.path.exists("as")), (2, True, False))


def flags_of(pid, target):
    """How a process has opened a target: with O_DIRECT, and with O_DSYNC. It waits until it has."""
    found = []

    def is_open():
        for it in os.listdir(f"/proc/{pid}/fd"):
            try:
                if os.readlink(f"/proc/{pid}/fd/{it}") == os.path.abspath(target):
                    found.append(int(re.search(r"flags:\s+(\d+)", read(f"/proc/{pid}/fdinfo/{it}").decode())[1], 8))
            except FileNotFoundError:
                pass # it was closed meanwhile
        return found

    await_that(is_open, f"that {target} is opened")
    return bool(found[0] & os.O_DIRECT), bool(found[0] & os.O_DSYNC)


def opened_targets():
    """The target is asked to keep each write as it is made, but where flushes do that behind them, and
    neither writes nor a check go by the page cache, unless that is asked for."""
    env = {**os.environ, "LD_PRELOAD": LIAR, "LIE_TARGET": "/opened", "LIE": "stalled:1"}
    for options, due in (((), (True, True)), (("--flush", "8"), (True, False)), (("--cached",), (False, False))):
        ran = subprocess.Popen([TARGET, "write", "two.fio", "opened", "os", *options], env=env, **QUIET)
        tell(f"a write, {options}: O_DIRECT, O_DSYNC", flags_of(ran.pid, "opened"), due)
        ran.kill()
        ran.wait()
    whole_run()
    write("waits", f"#!/bin/sh\nexec sleep {HANG}\n")
    os.chmod("waits", 0o755)
    for options, due in (((), True), (("--cached",), False)):
        ran = subprocess.Popen([TARGET, "check", "two.fio", "t", "s", *options], env={**os.environ, "DRIVE": os.path.abspath("waits")}, **QUIET)
        tell(f"a check, {options}: O_DIRECT", flags_of(ran.pid, "t")[0], due)
        ran.kill()
        ran.wait()
