"""Behind the taking of a state its target stays busy until it is cut: what the state has in flight is
written again, and nothing else, and no longer than it may be."""
import os
import random
import re
import socket
import struct
import time

from atomic import lying
from fleet_links import FLEET_NUMBER, door, hello
from fleet_servers import BLOCKS, DONE, ORDER, name_of, order, record, told, want
from serving import Servers, fleet, fleet_until_done, job_file, reports
from trying import BLOCK, HANG, HERE, LIAR, as_often, await_that, comes, job, read, run, stamp, state_in, tell, tell_has, write
from witness import counted

SEND, STATE = 66, 6
IDLE, AGAIN = "nothing is in flight: the drive is idle when it is cut", "are carried out again and again until the power goes"
WAYS = ("--by threads", "--by ring", "--cached", "--flush 4", "--queue 2")


def rows(log):
    """The writes that a liar's log has, as (block, number), in their order."""
    return [tuple(map(int, line.split()[1:])) for line in read(log).decode().splitlines() if line.count(" ") == 2]


def in_flight(state):
    issued, done = counted(state)
    return set(range(issued)) - done


def busy_targets():
    """While the command of a cut runs writes still come: those that the state has in flight, to their
    blocks, and each that is done came once."""
    job("busy.fio", writes=100_000)
    for way in (*WAYS, "--atomic"):
        env = lying("bt", LIE_LOG=os.path.abspath("bt.log"), **({"LIE_RING": "1"} if "ring" in way else {}))
        for it in ("bt", "bt.log"):
            if os.path.exists(it):
                os.remove(it)
        more = "until [ $(wc -l <bt.log) -gt $(($(wc -l <before) + 40)) ]; do sleep 0.02; done"
        cut = f"cp bt.log before; timeout {HANG // 2} sh -c '{more}'; cp bt.log behind"
        status, _, said = run("write", "busy.fio", "bt", "bs", "--after", "200", "--torn", *way.split(), "--cut", cut, env=env)
        due, done = in_flight(state_in("bs")), counted(state_in("bs"))[1]
        before, all_ = rows("before"), rows("bt.log")
        # (a write may be in flight by the state, and come to the target only behind the copy)
        behind, block_of = rows("behind")[len(before) :], {number: block for block, number in reversed(all_)}
        tell(f"{way}: what is written while the cut comes", (status, set(behind) <= {(block_of.get(it), it) for it in due}, len(behind) > 40), (0, True, True))
        tell(f"{way}: each that is done came once", [it for it in done if [number for _, number in all_].count(it) != 1], [])
        tell(f"{way}: how", {line.split()[0] for line in read("bt.log").decode().splitlines()}, {"atomic" if "atomic" in way else "made"})
        told_of = re.search(f"of (\\d+) writes in flight (\\d+) {AGAIN}", said)
        tell(f"{way}: it is said", told_of and (int(told_of[1]), len(set(behind)) <= int(told_of[2]) <= len(due)), (len(due), True))
        tell(f"{way}: its check", run("check", "busy.fio", "bt", "bs")[0], 0)
    status, _, said = run("write", "two.fio", "bt", "bs", "--yes", "--cut", "true")
    tell("a job that is through", (status, IDLE in said), (0, True))
    tell("without a cut nothing is said of it", "in flight" in run("write", "two.fio", "bt", "bs")[2], False)


def busy_turns():
    """No cut at all, a command that kills whoever writes, and one that fails, at any moment: no check has
    a fault."""
    job("turns.fio", blocks=256, writes=200_000, depth=16)
    chance, again = random.Random(5), 0
    for way in WAYS:
        if "ring" in way and "no io_uring" in run("write", "turns.fio", "none", "none.state", *way.split(), "--after", "1")[2]:
            way = "--torn"
        for turn in range(2 * as_often["killed"]):
            pause = f"{chance.uniform(0, 0.1):.3f}"
            ends = chance.choice(("true", "kill -9 $PPID", "false"))
            status, _, said = run("write", "turns.fio", "tt", "ts", "--after", str(chance.randrange(1, 400)), *way.split(), "--cut", f"sleep {pause}; {ends}")
            again += AGAIN in said
            tell(f"{way}, turn {turn}, {ends}", (status, run("check", "turns.fio", "tt", "ts")[0]), ({"t": 0, "f": 2, "k": -9}[ends[0]], 0))
    tell("in most turns writes were in flight", again > len(WAYS) * as_often["killed"], True)


def state(run_number, issued, floor, done=(), job_number=0):
    """A state that counts these, but for its job's settings."""
    words = [sum(1 << at - floor - 64 * word for at in done if word == (at - floor) // 64) for word in range(4)]
    return b"FCV2" + struct.pack(">QII", run_number, 0, job_number) + bytes(36) + struct.pack(">Q", issued) + bytes(32) + struct.pack(">5Q", floor, *words)


def state_frame(*words, **more):
    body = struct.pack(">I", 1) + state(*words, **more)
    frame = b"FC" + bytes([1, STATE]) + struct.pack(">III", 0, 8, len(body)) + body
    return bytes([SEND]) + struct.pack(">Q", len(frame)) + frame


def taken(name, says, lie="none:0", options=(), **more):
    """A server whose node says this, and once `then` is called what that says."""
    write(f"{name}.says", says)
    servers = Servers(name, 0, jobs=1)
    servers.count, servers.running = 1, [None]
    env = {"NODE": f"{HERE}/stepping_node.py", "NAME": name, "LD_PRELOAD": LIAR, "LIE": lie, "LIE_TARGET": f"{name}-0-0", "LIE_LOG": os.path.abspath(f"{name}.made"), **more}
    servers.start(0, env, options)
    return servers


def then(name, says):
    write(f"{name}.next", says)
    os.rename(f"{name}.next", f"{name}.then")


def count(name):
    return len(rows(f"{name}.made"))


def await_more(name, more):
    """Waits until so many further writes have begun."""
    due = count(name) + more
    await_that(lambda: count(name) >= due, f"more writes to {name}")


def busy_servers():
    """A server writes again what a state has in flight that its node sends, and nothing else."""
    says = order(7, 0, 0) + order(7, 1, 1) + order(7, 2, 5) + state_frame(7, 3, 0, done=[1])
    for name, options in (("mine", ()), ("flushed", ("--flush", "2")), ("cached", ("--cached",))):
        servers = taken(name, says, options=options)
        await_that(lambda: (1, 1) in rows(f"{name}.made") and rows(f"{name}.made").count((5, 2)) > 5, "a write in flight, and the one that is done")
        tell(f"{name}: the one that is done came once", (set(rows(f"{name}.made")), rows(f"{name}.made").count((1, 1))), ({(0, 0), (1, 1), (5, 2)}, 1))
        tell_has(f"{name}: it is said", read(servers.said(0)).decode(), f"job 0: of 2 writes in flight 2 {AGAIN}")
        servers.cut()
    servers = taken("through", order(7, 0, 0) + state_frame(7, 1, 1))
    await_that(lambda: IDLE in read(servers.said(0)).decode(), "that it is idle")
    servers.cut()
    orders = b"".join(order(7, at, at) for at in range(300))
    servers = taken("gone", orders + state_frame(7, 300, 0, done=range(1, 255)))
    await_that(lambda: "in flight" in read(servers.said(0)).decode(), "what is in flight")
    await_more("gone", 20)
    # (the place of write 0 may be taken by a later one, or be as it was)
    tell("of what isn't there any more, and what is done, nothing is written", [it for it in set(rows("gone.made")) if rows("gone.made").count(it) > 1 and 0 < it[1] < 255], [])
    servers.cut()
    strange = record(ORDER, name_of(7, 3) + struct.pack(">I", 9) + stamp(7, 0, 4, 9))
    servers = taken("strange", order(7, 0, 0) + strange + state_frame(7, 4, 0, done=[1, 2]))
    await_that(lambda: (9, 4) in rows("strange.made"), "the order with another write's bytes")
    await_more("strange", 500) # (by all threads that there may be)
    tell("an order with another write's bytes isn't written again", rows("strange.made").count((9, 4)), 1)
    servers.cut()
    servers = taken("other", order(7, 0, 0) + state_frame(6, 1, 0) + order(7, 1, 1))
    told("other", 2, DONE)
    tell("a state of another run", sorted(rows("other.made")), [(0, 0), (1, 1)])
    servers.cut()


def rested(name, says):
    """A server whose one write takes half a second, again and again; then its node says this as soon as
    it has begun once more."""
    servers = taken(name, order(7, 0, 0) + state_frame(7, 1, 0), "slow:1")
    await_more(name, 3)
    then(name, says)
    return servers


def rested_servers():
    """Before a check reads, and before a later run writes, what was in flight is over: nothing of it comes
    any more."""
    servers = rested("check", want(0, 1))
    told("check", 1, BLOCKS)
    with open("check-0-0", "r+b") as it:
        it.write(bytes(BLOCK))
    tell("behind a check nothing is written", comes_not(lambda: any(read("check-0-0")[:BLOCK])), True)
    due = count("check")
    tell("nor begun", comes_not(lambda: count("check") > due), True)
    servers.cut()
    servers = rested("later", order(8, 5, 0) + order(8, 6, 1))
    told("later", 3, DONE)
    made = rows("later.made")
    tell("behind the first order of a later run nothing of the one before is begun", [it for it in made[made.index((0, 5)) :] if it[1] < 5], [])
    tell("nor does it come", comes_not(lambda: read("later-0-0")[: 2 * BLOCK] != stamp(8, 0, 5, 0) + stamp(8, 0, 6, 1)), True)
    servers.cut()


def started_anew_at_rest():
    """Before a server starts anew for another fleet, what was in flight is over: each write that was begun
    has come, and none is begun any more."""
    servers = taken("anew", order(7, 0, 0) + state_frame(7, 1, 0), "slow:1", LIE_ENDS="1")
    await_more("anew", 3)
    door("anew-0.note.socket").close()
    os.remove("anew.says") # (the next life says nothing)
    with socket.socket(socket.AF_UNIX) as link:
        link.connect("anew-0.note.socket")
        link.sendall(hello(0, FLEET_NUMBER + 1, FLEET_NUMBER))
        await_that(lambda: read(servers.said(0)).count(b"is up") == 2, "a new start")
    kinds = [line.split()[0] for line in read("anew.made").decode().splitlines()]
    tell("as the next life begins each write that was begun has come", kinds.count("slow") - kinds.count("came"), 0)
    tell("none is begun any more", comes_not(lambda: count("anew") > len(kinds)), True)
    servers.cut()


def comes_not(holds):
    """Whether something doesn't come to hold within a second."""
    until = time.monotonic() + 1
    while time.monotonic() < until:
        if holds():
            return False
        time.sleep(0.01)
    return True


def busy_fleets():
    """A fleet's servers are busy until they are cut; where they aren't, the check is sound, and so is the
    next run and its check."""
    job_file("bf.fio", jobs=2, blocks=64, writes=100_000)
    servers = Servers("bf", 2)
    for turn in range(2 * as_often["killed"]):
        for how in ("cut", "not cut", "no check"):
            status, printed, _ = fleet_until_done(servers, "bf.fio", "--note", "bf.note", *servers.links())
            tell(f"turn {turn}, {how}: a run", (status, "the states are kept" in printed), (0, True))
            if how == "cut":
                servers.cut()
                servers.restart()
            if how != "no check":
                status, printed, _ = fleet("check", "bf.fio", "--note", "bf.note", *servers.links())
                tell(f"turn {turn}, {how}: its check", (status, [it[1] for it in reports(printed).values()]), (0, [0] * 4))
    runs = 6 * as_often["killed"]
    busy = lambda: len(re.findall(f"job [01]: (of \\d+ writes in flight [1-9]\\d* {AGAIN}|{IDLE})", read(servers.said(0)).decode()))
    tell("that they are busy is said of each job of each run", (comes(lambda: busy() >= 2 * runs), busy()), (True, 2 * runs))
    said = read(servers.said(0)).decode()
    for line, due in ((r"fleet-server: run \d+ is begun", runs), (r"the state of run \d+ job [01] is taken: \d+ ordered, \d+ done, \d+ in flight", 2 * runs), (r"a check of run \d+ is begun", runs * 2 // 3), (r"the check of run \d+ job [01] has ended: \d+ checked, 0 faults", runs * 4 // 3)):
        tell(f"a server says `{line}`", len(re.findall(line, said)), due)
    servers.cut()
