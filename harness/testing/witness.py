"""A witness and its agent, over pipes: cuts at random moments, caches that lie, links that end
anywhere, wrong pairs, and series of cycles."""
import json
import os
import random
import re
import shlex
import signal
import struct
import subprocess
import time

from trying import AGENT, BLOCK, HANG, HERE, LIAR, QUIET, WITNESS, await_file, comes, job, read, report, run, run_of, stamp, state_in, tell, tell_has, write

# What a welcome takes of a link, and the head of a piece of what was read.
WELCOME, CHUNK = 708, 24
LIED = WELCOME + 155 * 24 # (behind so many notices)
PASS_ON = f"python3 {shlex.quote(f'{HERE}/pass_on.py')}"


def link(target, *options, before="", behind=""):
    """The options that lead to an agent of a target; it writes its number to the file `agent`, so
    that it can be killed."""
    words = " ".join(shlex.quote(it) for it in (AGENT, target, *options))
    own = f"echo $$ >agent; exec {words}"
    return "--link", own if not (before or behind) else f"{before} {words} {behind}"


def witness(*words, **more):
    return run(*words, program=WITNESS, **more)


def kill_agent():
    """Kills the agent, and counts a failure where it has ended by itself."""
    try:
        os.kill(int(read("agent")), signal.SIGKILL)
    except ProcessLookupError:
        tell("the agent is there until it is killed", False, True)


def until_told(agent="agent", calls=60):
    """A command that waits until an agent has made so many calls that write, to its link or, by
    threads, to the target: as soon as it has some writes were told, on a slow machine, too."""
    made = f"/proc/$(cat {agent})/io" # (not every kernel has it)
    return f"i=0; until [ ! -e {made} ] || [ $(sed -n 's/^syscw: //p' {made}) -ge {calls} ] || [ $((i += 1)) -gt {5 * HANG} ]; do sleep 0.02; done"


# A command that cuts once some writes were told; and how many calls write all of two.fio by
# threads.
KILL, ALL_OF_TWO = "kill -KILL $(cat agent)", 2 * 128 + 1
KILL_TOLD = f"{until_told()}; {KILL}"


def put_earlier_state(state):
    """Puts one there that the next run puts aside once its agent has answered: then STATE.old is
    there."""
    write(state, "FCV of an earlier run")
    if os.path.exists(f"{state}.old"):
        os.remove(f"{state}.old")


def counted(state):
    """The writes that a bare state counts, by the manual's layout."""
    issued = struct.unpack(">Q", state[56:64])[0]
    floor, *words = struct.unpack(">5Q", state[96:136])
    return issued, set(range(floor)) | {floor + at for at in range(256) if words[at // 64] >> at % 64 & 1}


def faults_by(log, state, data, blocks):
    """The blocks that have to be faults: what they hold is neither their last write that was told,
    nor one in flight."""
    issued, done = counted(state)
    run_number = struct.unpack(">Q", state[4:12])[0]
    of_block = {}
    for _, block, number in (line.split() for line in log.decode().splitlines()):
        of_block.setdefault(int(block), []).append(int(number))
    faults = []
    for block in range(blocks):
        told = [it for it in of_block.get(block, []) if it in done]
        flying = [it for it in of_block.get(block, []) if it not in done and it < issued]
        sound = told and any(data[block * BLOCK : (block + 1) * BLOCK] == stamp(run_number, 0, it, block) for it in [max(told), *flying])
        if told and not sound:
            faults.append(block)
    return faults


def witness_runs():
    """Whole runs over a link, and takes without a cut."""
    status, printed, _ = witness("write", "two.fio", "ws", *link("wt"))
    tell("a whole run by a witness", (status, printed), (0, f"run {run_of('ws')}: 128 ordered, 128 told, 0 in flight\n"))
    tell("its check", witness("check", "two.fio", "ws", *link("wt"))[:2], (0, report([])))
    tell("its check by drive-target", run("check", "two.fio", "wt", "ws")[:2], (0, report([])))
    data = bytearray(read("wt"))
    data[7 * BLOCK + 9] ^= 1
    write("wh", bytes(data))
    tell("one bit", witness("check", "two.fio", "ws", *link("wh"), "--other-drive")[:2], (1, report([7])))
    write("wh", bytes(data[: 40 * BLOCK + 5]))
    status, printed, said = witness("check", "two.fio", "ws", *link("wh", "--cached"), "--other-drive")
    tell("a target that ends early", (status, printed), (1, report([7], 40)))
    tell_has("what is said of it", said, "block 40 can't be read: the target ends there")
    status, printed, _ = witness("write", "two.fio", "ws", "--after", "50", *link("wt"))
    tell("taken after 50", (status, " 50 told" in printed), (0, True))
    tell("no fault", witness("check", "two.fio", "ws", *link("wt"))[0], 0)
    pieces = link("wp", before=f"LD_PRELOAD={shlex.quote(LIAR)} LIE_PIECES=1")
    status, printed, _ = witness("write", "two.fio", "wps", *pieces)
    tell("threads tell over a link that takes five bytes at a time", (status, printed), (0, f"run {run_of('wps')}: 128 ordered, 128 told, 0 in flight\n"))
    env = {"LD_PRELOAD": LIAR, "LIE": "failed:100", "LIE_TARGET": "/wf"}
    status, printed, said = witness("write", "long.fio", "wfs", *link("wf"), env=env)
    tell("a write fails at the agent", (status, "at the cut" in printed), (2, False))
    tell("which is told", bool(re.search(r"drive-witness: write \d+ to block \d+ failed at the agent", said)), True)
    tell_has("and what is kept", said, "the state was taken there: wfs")
    tell_has("its check", witness("check", "long.fio", "wfs", *link("wf"))[1], "faults 0 end whole first -")
    ran = subprocess.Popen([WITNESS, "write", "long.fio", "wi", *link("wl")], stdout=subprocess.PIPE, stderr=subprocess.DEVNULL, text=True)
    await_file("wl")
    time.sleep(0.2)
    ran.send_signal(signal.SIGINT)
    printed, _ = ran.communicate(timeout=HANG)
    tell("SIGINT", (ran.returncode, "at the cut" in printed), (0, False))
    tell_has("its check", witness("check", "long.fio", "wi", *link("wl"))[1], "faults 0 end whole first -")


def endless():
    """A job that no machine is through with before it is cut."""
    return job("endless.fio", blocks=4096, writes=1_000_000)


def random_kills():
    """The agent is killed at a hundred random moments, by io_uring and by threads, and no fault is
    told."""
    endless()
    chance, flying = random.Random(2), 0
    for turn in range(100):
        env = {**os.environ, **({"LD_PRELOAD": LIAR} if turn % 4 == 3 else {})}
        put_earlier_state("ks")
        options = {1: ("--flush", "4"), 2: ("--queue", "3")}.get(turn % 4, ())
        ran = subprocess.Popen([WITNESS, "write", "endless.fio", "ks", *link("wk", *options)], stdout=subprocess.PIPE, stderr=subprocess.DEVNULL, text=True, env=env)
        await_file("ks.old")
        time.sleep(chance.uniform(0, 0.15))
        kill_agent()
        printed, _ = ran.communicate(timeout=HANG)
        told = re.search(r"(\d+) told, (\d+) in flight at the cut", printed)
        flying += int(told[2]) if told else 0
        _, printed, said = witness("check", "endless.fio", "ks", *link("wk"))
        tell(f"killed, turn {turn}", (bool(told), "faults 0 end whole first -" in printed), (True, True))
    tell("writes were in flight", flying > 100, True)


def lying_caches():
    """A cache that tells writes as done which it hasn't written: just the blocks that it lost are
    faults. One that obeys a flush loses none. By threads, by a ring, and by threads in turns."""
    for turn in range(14):
        flushes, ring, cached = turn % 2 == 1, 3 < turn < 12, turn > 11
        for file in ("agent", "log", "lc"):
            if os.path.exists(file):
                os.remove(file)
        env = {**os.environ, "LD_PRELOAD": LIAR, "LIE": "cached:64", "LIE_LOG": os.path.abspath("log"), "LIE_TARGET": "/lc", **({"LIE_FLUSHES": "1"} if flushes else {}), **({"LIE_RING": "1"} if ring else {})}
        options = (*(("--flush", "2" if ring else "8") if flushes else ()), *(("--cached",) if cached else ()))
        ran = subprocess.Popen([WITNESS, "write", "cache.fio", "ls", *link("lc", *options)], env=env, **QUIET)
        comes(lambda: os.path.exists("log") and read("log").count(b"\n") > 1000)
        kill_agent()
        tell(f"a lying cache, turn {turn}", ran.wait(HANG), 0)
        due = faults_by(read("log"), state_in("ls"), read("lc"), 512)
        status, printed, _ = witness("check", "cache.fio", "ls", *link("lc"))
        checked = int(printed.split()[2])
        tell(f"a lying cache, turn {turn}: {len(due)} faults", (status, printed), (1 if due else 0, report(due, checked)))
        tell(f"a lying cache, turn {turn}: whether it lost any", bool(due), not flushes)


def broken_links():
    """The link ends within an order, a notice, a hello; says what no agent says; falls silent; or
    leads to a wrong one."""
    tell("a whole run by a witness", witness("write", "two.fio", "ws", *link("wt"))[0], 0)
    ends = {
        "an order": {"before": f"{PASS_ON} 100003 |"},
        "a notice": {"behind": f"| {PASS_ON} 5003"},
        "noise": {"behind": f"| {PASS_ON} {LIED} noise"},
        "a notice that nobody gave": {"behind": f"| {PASS_ON} {LIED} lie"},
    }
    for what, way in ends.items():
        # (of what is to be said nothing may come before it)
        quiet = () if str(LIED) in way.get("behind", "") else ("--quiet", "500")
        status, printed, told = witness("write", "long.fio", "bs", *quiet, *link("bl", **way))
        tell(f"a link that ends within {what}", (status, "at the cut" in printed), (0, True))
        status, printed, _ = witness("check", "long.fio", "bs", *link("bl"))
        tell(f"a link that ends within {what}: the check", (status in (0, 3), "faults 0 end whole" in printed), (True, True))
        if str(LIED) in way.get("behind", ""):
            tell_has(f"{what} is told", told, "what no agent says")
    status, printed, said = witness("write", "long.fio", "bq", "--quiet", "300", *link("bl", behind=f"| {PASS_ON} 5000 silent"))
    tell("a link that falls silent", (status, "at the cut" in printed, "nothing was heard" in said), (0, True, True))

    def refused(what, words, part, command="write", state="br"):
        status, printed, said = witness(command, "two.fio", state, *words, "--wait", "10")
        tell(f"{what}: the status", (status, printed), (2, ""))
        tell_has(f"{what}: what is said", said, part)

    refused("a hello that is cut", link("bl", before=f"{PASS_ON} 20 |"), "no witness said hello")
    refused("no agent", ("--link", "true"), "no agent answers")
    refused("another version", ("--link", "printf FCAGENT1; sleep 2"), "no agent of this version")
    refused("a shell that greets", ("--link", f"echo Welcome to this machine; exec {AGENT} bl"), "no agent of this version")
    write("letter2", b"Dear all,\n" * 40000)
    refused("other bytes on the target", link("letter2"), "the agent refuses: letter2: it holds other bytes")
    refused("a check of another region", (*link("wt"), "--offset", "4096"), "--offset 0 --stride 4096", "check", "ws")
    refused("a check that ends early", link("wt", behind=f"| {PASS_ON} 100000; kill $$"), "nothing was checked", "check", "ws")
    whole = WELCOME + CHUNK + 64 * BLOCK # (and what lacks is the end)
    refused("a check that ends behind a chunk", link("wt", behind=f"| {PASS_ON} {whole}; kill $$"), "nothing was checked", "check", "ws")
    tell("no state was made", os.path.exists("br"), False)


def regions():
    """Blocks that lie apart, behind an offset."""
    words = ("--offset", "8192", "--stride", "20480")
    tell("apart: a write", witness("write", "two.fio", "rs", *words, *link("rt"))[0], 0)
    tell("apart: as large as it has to be", os.path.getsize("rt"), 8192 + 63 * 20480 + BLOCK)
    tell("apart: a check", witness("check", "two.fio", "rs", *link("rt"))[:2], (0, report([])))
    tell("apart: a check by drive-target", run("check", "two.fio", "rt", "rs")[:2], (0, report([])))
    data = bytearray(read("rt"))
    tell("apart: nothing between", any(data[:8192]) or any(any(data[at : at + 16384]) for at in range(8192 + BLOCK, len(data) - 16384, 20480)), False)
    data[8192 + 20480 * 5] ^= 1
    write("rh", bytes(data))
    tell("apart: a fault", witness("check", "two.fio", "rs", *link("rh"), "--other-drive")[:2], (1, report([5])))
    tell("apart: by drive-target", run("write", "two.fio", "rt", "rs2", *words)[0], 0)
    tell("apart: its check", run("check", "two.fio", "rt", "rs2", *words)[:2], (0, report([])))
    tell("apart: and without the options", run("check", "two.fio", "rt", "rs2")[:2], (0, report([])))
    tell("apart: another stride", run("check", "two.fio", "rt", "rs2", "--stride", "4096")[0], 2)
    tell("apart: not a multiple", run("write", "two.fio", "rt", "rs3", "--offset", "100")[0], 2)


def cycles_in(printed):
    """The lines of a series that tell of a cycle each."""
    return [it for it in printed.splitlines() if it.startswith("cycle ")]


def cycles():
    """A series of cycles, stopped and resumed."""
    off = ("--off", KILL_TOLD, "--on", "true", "--every", "0.15..0.4", "--seed", "7", "--trust-off")
    status, printed, said = witness("cycle", "long.fio", "series", *link("ct"), *off, "--cycles", "5", "--json")
    rows = [json.loads(line) for line in printed.splitlines()]
    tell("five cycles", (status, [it["cycle"] for it in rows]), (0, [1, 2, 3, 4, 5]))
    tell("each was cut, without a fault", all(it["cut"] == "word" and not it["faults"] and it["ordered"] == it["told"] + it["in_flight"] for it in rows), True)
    tell("each has its moment", len({it["cut_after"] for it in rows}) > 3 and all(0.15 <= it["cut_after"] <= 0.4 for it in rows), True)
    tell("their lines are kept", read("series/cycles.jsonl").decode(), printed)
    tell("a state of them", run("check", "long.fio", "ct", "series/cycle-000005.state")[0], 0)
    refuse = witness("cycle", "long.fio", "series", *link("ct"), *off, "--cycles", "6")
    tell("a series that is there", (refuse[0], "--resume" in refuse[2]), (2, True))
    refuse = witness("cycle", "two.fio", "series", *link("ct"), *off, "--cycles", "6", "--resume")
    tell("another job", (refuse[0], "another job" in refuse[2]), (2, True))
    stops = {"LD_PRELOAD": LIAR, "LIE_STOPS": "behind/cycle-000006.state"}
    tell("it is killed behind a cut", witness("cycle", "long.fio", "series", *link("ct"), *off, "--cycles", "9", "--resume", env=stops)[0], -signal.SIGKILL)
    left = run_of("series/cycle-000006.state")
    status, printed, _ = witness("cycle", "long.fio", "series", *link("ct"), *off, "--cycles", "8", "--resume")
    lines = read("series/cycles.jsonl").splitlines()
    tell("it goes on", (status, len(cycles_in(printed)) >= 2, len(lines)), (0, True, 8))
    tell("and checks first what was left", json.loads(lines[5])["run"], str(left))
    env = {"LD_PRELOAD": LIAR, "LIE": "lost:3", "LIE_TARGET": "/cf"}
    status, printed, _ = witness("cycle", "long.fio", "faulty", *link("cf"), *off, "--cycles", "4", env=env)
    tell("a cycle with faults ends a series", (status, len(cycles_in(printed))), (1, 1))
    status, printed, _ = witness("cycle", "long.fio", "faulty2", *link("cf"), *off, "--cycles", "3", "--keep-going", env=env)
    tell("but not with --keep-going", (status, len(cycles_in(printed))), (1, 3))
    status, printed, _ = witness("cycle", "long.fio", "faulty", *link("cf"), *off, "--cycles", "2", "--resume", "--keep-going")
    tell("a series that is resumed behind faults", (status, len(cycles_in(printed))), (1, 1))
    status, printed, _ = witness("cycle", "long.fio", "short", *link("cs"), "--off", KILL, *off[2:4], "--trust-off", "--every", "0.1..0.1", "--cycles", "2", env={**env, "LIE": "stalled:1", "LIE_TARGET": "/cs"})
    tell("a series in which nothing was checked", (status, len(cycles_in(printed))), (3, 2))
    status, _, said = witness("cycle", "long.fio", "failing2", *link("ct"), "--off", "false", "--on", "true", "--every", "0.1..0.1")
    tell("a command that doesn't cut", (status, "it didn't cut the power" in said), (2, True))
