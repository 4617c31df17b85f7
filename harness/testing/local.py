"""A witness whose agent has a `drive` of its own: only notices go over the link."""
import os
import random
import re
import shlex
import signal
import subprocess
import time

from trying import HANG, LIAR, QUIET, WITNESS, await_file, await_that, comes, read, report, run_of, state_in, tell, tell_has, write
from witness import PASS_ON, WELCOME, endless, faults_by, kill_agent, link, put_earlier_state, witness

# What a hello takes of a link, and each notice.
HELLO, NOTICE = 356, 24


def local_runs():
    """Whole runs, of which no block goes over the link, and takes without a cut."""
    both = HELLO + os.path.getsize("two.fio") + 128 * NOTICE
    status, printed, _ = witness("write", "two.fio", "ls", "--local", *link("lt", before=f"{PASS_ON} {both} |"))
    tell("a whole local run", (status, printed), (0, f"run {run_of('ls')}: 128 ordered, 128 told, 0 in flight\n"))
    tell("its check", witness("check", "two.fio", "ls", *link("lt"))[:2], (0, report([])))
    data = bytearray(read("lt"))
    data[7 * 4096 + 9] ^= 1
    write("lh", bytes(data))
    tell("one bit", witness("check", "two.fio", "ls", *link("lh"), "--other-drive")[:2], (1, report([7])))
    status, printed, _ = witness("write", "two.fio", "ls", "--local", "--after", "50", *link("lt"))
    tell("taken after 50", (status, " 50 told" in printed), (0, True))
    tell("no fault", witness("check", "two.fio", "ls", *link("lt"))[0], 0)
    env = {"LD_PRELOAD": LIAR, "LIE": "failed:100", "LIE_TARGET": "/lf"}
    status, printed, said = witness("write", "long.fio", "lfs", "--local", *link("lf"), env=env)
    tell("a write fails at the agent", (status, "failed at the agent" in said, "at the cut" in printed), (2, True, False))
    tell_has("its check", witness("check", "long.fio", "lfs", *link("lf"))[1], "faults 0 end whole first -")


def checked(what, words, job_file, state, target):
    """A run that is cut, and its check, which finds no fault."""
    printed, _ = words.communicate(timeout=HANG)
    tell(f"{what}: the cut is told", bool(re.search(r"\d+ told, \d+ in flight at the cut", printed)), True)
    status, printed, _ = witness("check", job_file, state, *link(target))
    tell(what, (status in (0, 3), "faults 0 end whole first -" in printed), (True, True))


def begun(job_file, state, *words):
    """A local run of a job, under way."""
    own = [WITNESS, "write", job_file, state, "--local", *words]
    return subprocess.Popen(own, stdout=subprocess.PIPE, stderr=subprocess.DEVNULL, text=True)


def local_kills():
    """The agent is killed at random moments, or its `drive`, and no fault is told."""
    endless()
    chance = random.Random(3)
    for turn in range(32):
        put_earlier_state("ks")
        ran = begun("endless.fio", "ks", *link("lk", *{1: ("--flush", "4"), 2: ("--flush", "4", "--queue", "2")}.get(turn % 3, ())))
        await_file("ks.old")
        time.sleep(chance.uniform(0, 0.15))
        if turn % 4 == 3:
            subprocess.run(["pkill", "-KILL", "-P", read("agent").decode().strip()], **QUIET)
        else:
            kill_agent()
        checked(f"killed, turn {turn}", ran, "endless.fio", "ks", "lk")


def local_links():
    """The link ends anywhere, on the way there or back, or falls silent: what the agent hears no
    more of it doesn't go on from, however long it lives."""
    chance = random.Random(4)
    text = os.path.getsize("cache.fio")
    for turn in range(12):
        part = 16 * chance.randrange(400) + chance.randrange(16)
        way = {"behind": f"| {PASS_ON} {WELCOME + part} {'silent' if turn % 3 == 1 else ''}"}
        if turn % 3 == 2:
            way = {"before": f"{PASS_ON} {HELLO + text + part} |"}
        ran = begun("cache.fio", "ks", *link("ll", **way), "--quiet", "500")
        checked(f"a local link that ends, turn {turn}", ran, "cache.fio", "ks", "ll")


def ended_witness():
    """An agent that has nothing more to tell ends once its witness is killed, and the next one has its
    target."""
    endless()
    ran = subprocess.Popen([WITNESS, "write", "endless.fio", "es", "--local", *link("le")], **QUIET)
    await_file("le")
    await_that(lambda: any(read("le")), "a write")
    agent = read("agent").decode().strip()
    ran.send_signal(signal.SIGSTOP)
    time.sleep(0.5) # (what was ordered by then is told into the link)
    ran.kill()
    ran.wait()
    tell("the agent ends behind its link", comes(lambda: not os.path.exists(f"/proc/{agent}/exe")), True)
    tell("the next witness has its target", witness("write", "two.fio", "es", "--local", *link("le"))[0], 0)


def local_caches():
    """A cache that lies: just the blocks that it lost are faults."""
    for turn in range(2):
        for file in ("agent", "log", "lc"):
            if os.path.exists(file):
                os.remove(file)
        env = {**os.environ, "LD_PRELOAD": LIAR, "LIE": "cached:64", "LIE_LOG": os.path.abspath("log"), "LIE_TARGET": "/lc"}
        ran = subprocess.Popen([WITNESS, "write", "cache.fio", "ls", "--local", *link("lc")], env=env, **QUIET)
        comes(lambda: os.path.exists("log") and read("log").count(b"\n") > 1000)
        kill_agent()
        tell(f"a lying cache, turn {turn}", ran.wait(HANG), 0)
        due = faults_by(read("log"), state_in("ls"), read("lc"), 512)
        status, printed, _ = witness("check", "cache.fio", "ls", *link("lc"))
        tell(f"a lying cache, turn {turn}: {len(due)} faults", (status, printed), (1, report(due, int(printed.split()[2]))))
        tell(f"a lying cache, turn {turn}: it lost some", bool(due), True)


def local_pairs():
    """An agent whose `drive` isn't there, or orders other writes."""
    def refused(what, drive, part):
        command = link("lp")[1].replace("exec ", f"exec env DRIVE={shlex.quote(drive)} ")
        status, printed, said = witness("write", "pair.fio", "ps", "--local", "--link", command)
        tell(f"{what}: the status", (status, printed), (2, ""))
        tell_has(f"{what}: what is said", said, part)

    sizes = "rw=randwrite\nbs=4k\nsize=256k\nio_size=2m\niodepth=8\n"
    write("pair.fio", f"[a]\n{sizes}[b]\n{sizes}")
    refused("no drive at the agent", "/nowhere/drive", "the agent refuses: /nowhere/drive: No such file")
    write("other", f'#!/bin/sh\nexec {os.environ["DRIVE"]} "$1" "$2" 1\n')
    os.chmod("other", 0o755)
    refused("another drive at the agent", os.path.abspath("other"), "what the agent writes isn't what is ordered here")
    write("deaf", "#!/bin/sh\necho refused 1 Nothing\n")
    os.chmod("deaf", 0o755)
    command = link("lp")[1].replace("exec ", f"exec env DRIVE={os.path.abspath('deaf')} ")
    _, printed, said = witness("write", "pair.fio", "ps", "--local", "--link", command)
    tell("a drive at the agent that refuses", ("0 told" in printed, "drive, on this machine: refused 1 Nothing" in said), (True, True))
