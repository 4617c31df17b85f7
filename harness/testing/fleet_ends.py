"""How a fleet's runs end: by a cut only where all is kept, by a stop, a signal, or a client that is
gone; and what isn't begun at all."""
import os
import re
import signal
import subprocess
import sys
import time

from failing import ended
from serving import FEW, FLEET, MORE, Servers, fleet, fleet_in_time, fleet_saying, job_file
from trying import HANG, HERE, LIAR, await_text, await_that, comes, read, run, tell, write

CUT = ("--cut", "touch cut-was-made")


def was_cut():
    """Whether the power was cut since this was asked last."""
    if not os.path.exists("cut-was-made"):
        return False
    os.remove("cut-was-made")
    return True


def unkept_states():
    """Where not all states are kept, or a write has failed, there is no cut, which would destroy what can
    tell why; unless that is asked for. The run's end says so."""
    job_file("unkept.fio", jobs=1, blocks=64, writes=100_000)
    servers = Servers("unkept", 2, jobs=1)
    words = ["write", "unkept.fio", "--note", "unkept.note", *CUT]
    for anyway in ((), ("--cut-anyway",)):
        status, printed = next(came for came in (left_by_one(servers, wait, *words, *anyway) for wait in (FEW, MORE)) if came)
        tell(f"a server is gone at the trigger {anyway}", (status, "not all states are kept" in printed, was_cut()), (2, True, bool(anyway)))
        tell("which is said", "there is no cut: not all states are kept" in read("said").decode(), not anyway)
    servers.cut()
    servers.start(0)
    servers.start(1, {"LD_PRELOAD": LIAR, "LIE": "failed:5", "LIE_TARGET": "unkept-1-0"})
    status, printed, said = fleet(*words, *servers.links())
    tell("a write fails", (status, was_cut(), "the states are kept" in printed), (2, False, True))
    for what, text in (("the trigger", said), ("the last line", printed)):
        tell(f"{what} says why", bool(re.search(r"a write has failed: server 1: unkept-1-0: write \d+ to block \d+ failed: Input/output error", text)), True)
    servers.cut()


def left_by_one(servers, wait, *words):
    """A run of which a server is killed behind its begin: its status, and what it printed; nothing
    where the servers hadn't begun it in so many seconds. Behind that both are there again."""
    with open("said", "wb") as said:
        writing = subprocess.Popen([FLEET, *words, "--wait", str(wait), "--trigger-file", "pulled", *servers.links()], stdin=subprocess.DEVNULL, stdout=subprocess.PIPE, stderr=said, text=True)
    await_that(lambda: b" is begun: " in read("said") or writing.poll() is not None, "the begin of a run")
    is_begun = b" is begun: server 0 good, server 1 good\n" in read("said")
    servers.kill(1)
    write("pulled", "")
    printed = writing.communicate(timeout=HANG)[0]
    os.remove("pulled")
    servers.start(1)
    fleet("stop", "--note", "unkept.note", *servers.links())
    return (writing.returncode, printed) if is_begun else None


def unfit_jobs():
    """What the servers' targets can't take is refused before a run begins, with the server's reason."""
    job_file("unfit.fio", jobs=2, blocks=64, writes=64)
    servers = Servers("unfit", 0, jobs=2)
    servers.count, servers.running = 1, [None]
    for what, places, why in (
        ("a job without a target", ["unfit-a"], "there is no job 1"),
        ("regions that meet", ["unfit-b@0", "unfit-b@4096"], "jobs 0 and 1 write to the same bytes of unfit-b"),
        ("blocks that don't lie there", ["unfit-c", "unfit-d@512"], "job 1: blocks of 4096 bytes don't lie at its offset"),
    ):
        servers.places = places
        servers.start(0)
        status, printed, said = fleet("write", "unfit.fio", "--note", "unfit.note", *CUT, *servers.links())
        tell(what, (status, printed, was_cut(), f"fleet: server 0: {why}" in said), (2, "", False, True))
        tell(f"{what}: nothing is written", [it for it in places if any(read(it.split("@")[0]))], [])
        servers.cut()
        os.remove(f"{servers.note(0)}.targets")
    servers.places = ["unfit-e@0/8192", "unfit-e@4096/8192"]
    servers.start(0)
    tell("blocks of one job between those of the other", fleet("write", "unfit.fio", "--note", "unfit.note", "--after-writes", "128", *servers.links())[0], 0)
    tell("a job file that can't be read", fleet("write", "unfit.note", "--note", "unfit.note", *servers.links())[0], 2)
    servers.cut()


def stopped_fleets():
    """A run that isn't begun everywhere is stopped; so is one by a second signal, and by `fleet stop`; and
    one whose client is gone. Till then the servers say that they are busy, and with which run."""
    job_file("stop.fio", jobs=1, blocks=64, writes=1_000_000)
    servers = Servers("stop", 2, jobs=1)
    words = [FLEET, "write", "stop.fio", "--note", "stop.note", "--after", "600", *servers.links()]
    with open("said", "wb") as said:
        writing = subprocess.Popen(words, stdin=subprocess.DEVNULL, stdout=subprocess.DEVNULL, stderr=said)
    await_text("said", "is begun")
    writing.kill()
    writing.wait()
    number = re.search(r"run (\d+) is begun", read("said").decode())[1]
    status, _, said = fleet_in_time(lambda _, __, said: said.count(f"busy with run {number}") >= 2, *words[1:])
    tell("a client behind one that was killed", (status, said.count(f"busy with run {number}") >= 2), (2, True))
    told = lambda: fleet("status", "--note", "stop.note", *servers.links())[:2]
    tell("the status of each", comes(lambda: [(it[0], it[1].count(f"writes run {number}")) for it in [told()]] == [(0, 2)]), True)
    status, _, said = fleet("stop", "--run", number, "--note", "stop.note", *servers.links())
    tell("it is stopped", (status, f"run {number} is stopped: server 0 good, server 1 good" in said), (0, True))
    servers.kill(1)
    status, _, said = fleet_saying("server 1 doesn't answer", *words[1:])
    tell("a server is absent at the begin: the others are stopped", (status, "server 1 doesn't answer" in said), (2, True))
    servers.start(1)
    for signals, due in ((1, 0), (2, 2)):
        with open("said", "wb") as said:
            writing = subprocess.Popen(words, stdin=subprocess.DEVNULL, stdout=subprocess.DEVNULL, stderr=said)
        await_text("said", "is begun")
        servers.signal(signal.SIGSTOP if signals == 2 else signal.SIGCONT) # (else the states are kept before the second)
        writing.send_signal(signal.SIGINT)
        if signals == 2:
            await_text("said", "triggered")
            writing.send_signal(signal.SIGINT)
        tell(f"{signals} signals", (ended(writing, HANG), b"is stopped" in read("said")), (due, signals == 2))
        servers.signal(signal.SIGCONT)
        fleet("stop", "--note", "stop.note", *servers.links())
    servers.cut()


def signals_within_locks():
    """A signal may come while the client has just taken any of its locks: it then does what another does."""
    job_file("locks.fio", jobs=1, blocks=64, writes=1_000_000)
    servers = Servers("locks", 2, jobs=1)
    words = [FLEET, "write", "locks.fio", "--note", "locks.note", "--after", "600", "--wait", str(HANG), *servers.links()]
    stops = ",".join(str(it.pid) for it in servers.running)
    for turns, due in (*((str(at), 0) for at in range(200, 208)), ("200,201", 2), ("200,203", 2), ("201,206", 2)):
        # (else the states are kept before the second)
        status, _, said = run(f"{HERE}/signalled.py", turns, *words, program=sys.executable, env={"STOPS": stops} if due else {})
        tell(f"signals at the locks {turns}", (status, "is stopped" in said), (due, due == 2))
        servers.signal(signal.SIGCONT)
        if due:
            fleet("stop", "--note", "locks.note", *servers.links())
    servers.cut()


def signals_unlooked_at():
    """A third signal ends a client that waits for what never comes."""
    os.mkfifo("never.fio")
    with open("said", "wb") as said:
        waiting = subprocess.Popen([FLEET, "write", "never.fio", "--note", "never.note", "--server", "cat"], stdin=subprocess.DEVNULL, stdout=subprocess.DEVNULL, stderr=said)
    await_that(lambda: is_read("never.fio"), "who reads the job file")
    for _ in range(2):
        waiting.send_signal(signal.SIGINT)
        time.sleep(0.2)
        tell("it waits behind two signals", waiting.poll(), None)
    tell("it ends behind a third one", (comes(lambda: has_ended_by_another(waiting)), waiting.poll()), (True, 2))
    tell("what it says", b"ended at once by a third signal" in read("said"), True)
    waiting.kill()


def is_read(path):
    """Whether somebody reads this pipe. Then it has a writer, which says nothing, until this process ends."""
    try:
        os.open(path, os.O_WRONLY | os.O_NONBLOCK)
    except OSError:
        return False
    return True


def has_ended_by_another(ran):
    """Sends a signal to a program, and tells whether it has ended. (Two that come close together are one.)"""
    if ran.poll() is None:
        ran.send_signal(signal.SIGINT)
        time.sleep(0.2)
    return ran.poll() is not None


def orphans():
    """A server whose client is gone ends its run by itself: it starts anew, and takes the next one."""
    job_file("orphan.fio", jobs=1, blocks=64, writes=1_000_000)
    servers = Servers("orphan", 0, jobs=1)
    servers.count, servers.running = 1, [None]
    servers.start(0, options=["--orphan", "10"]) # (so long no client is silent that is there)
    with open("said", "wb") as said:
        writing = subprocess.Popen([FLEET, "write", "orphan.fio", "--note", "orphan.note", "--after", "600", *servers.links()], stdin=subprocess.DEVNULL, stdout=subprocess.DEVNULL, stderr=said)
    await_text("said", "writes a second")
    time.sleep(11)
    tell("while its client is there a run goes on", read(servers.said(0)).count(b"starts anew"), 0)
    writing.kill()
    writing.wait()
    said = lambda: read(servers.said(0)).decode()
    tell("then it ends by itself", comes(lambda: "no client is there, and a run goes on: the server starts anew" in said()), True)
    tell("and begins anew", comes(lambda: said().count("server 0 is up") == 2), True)
    tell("it is the same process", servers.running[0].poll(), None)
    tell("the next run", fleet("write", "orphan.fio", "--note", "orphan.note", "--after-writes", "64", *servers.links())[0], 0)
    tell("and its check", fleet("check", "orphan.fio", "--note", "orphan.note", *servers.links())[0], 0)
    servers.cut()
