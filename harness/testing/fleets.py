"""Fleets of real nodes on this machine: whole stories, targets that lie, nodes that are killed at
random moments, notes that are lost, torn or another node's, and links that are bad."""
import json
import os
import random
import re
import shlex
import shutil
import signal
import struct
import subprocess
import time

from serving import FLEET, SERVER, TOP, Servers, earliest, fleet, fleet_in_time, fleet_until, fleet_until_done, job_file, jobs_left_out, reports, turns
from trying import BLOCK, HANG, LIAR, QUIET, as_often, read, run, tell, tell_has, write


def whole_story():
    """Three servers with two jobs each are cut behind a trigger, and checked."""
    job_file("fleet.fio")
    servers = Servers("story", 3)
    status, printed, said = fleet_until_done(servers, "fleet.fio", "--note", "story.note", *servers.links())
    tell("a fleet writes", (status, "the states are kept" in printed), (0, True))
    servers.cut()
    servers.restart()
    status, printed, said = fleet("check", "fleet.fio", "--note", "story.note", *servers.links())
    found = reports(printed)
    tell("its check", (status, sorted(found), [it[1:] for it in found.values()]), (0, [(s, j) for s in range(3) for j in range(2)], [(0, "whole", [])] * 6))
    tell("all have blocks that were checked", all(it[0] > 0 for it in found.values()), True)
    data = bytearray(read("story-1-0"))
    block = earliest(data)
    servers.cut()
    data[block * BLOCK + 77] ^= 4
    write("story-1-0", bytes(data))
    servers.restart()
    status, printed, said = fleet("check", "fleet.fio", "--note", "story.note", *servers.links())
    tell("one bit of one block at one server", (status, {at: it[3] for at, it in reports(printed).items() if it[1]}), (1, {(1, 0): [block]}))
    data[block * BLOCK + 77] ^= 4
    servers.cut()
    write("story-1-0", bytes(data))
    servers.start(0)
    servers.start(1)
    status, printed, said = fleet_in_time(lambda _, printed, __: len(reports(printed)) == 4, "check", "fleet.fio", "--note", "story.note", *servers.links())
    tell("one server never comes back, and the others are sound", (status, [it[1] for it in reports(printed).values()]), (2, [0] * 4))
    tell_has("what is said of the run", printed.splitlines()[-1], "not checked whole")
    servers.kill(0)
    servers.kill(1)


def written(log):
    """The last order of each block that the log of a liar tells as lost, by block."""
    lost = {}
    for kind, block, number in (line.split() for line in log.decode().splitlines()):
        lost[int(block)] = kind == "lost"
    return sorted(block for block, is_lost in lost.items() if is_lost)


def lying_target():
    """One target of one server loses writes that it tells as done: those blocks are faults, and no
    others, there or elsewhere."""
    job_file("lies.fio", jobs=2, blocks=256, writes=200)
    servers = Servers("lies", 0)
    servers.count, servers.running = 2, [None, None]
    lie = {"LD_PRELOAD": LIAR, "LIE": "lost:37", "LIE_TARGET": "lies-1-0", "LIE_LOG": "lies.log"}
    servers.start(0)
    servers.start(1, lie)
    status, _, _ = fleet("write", "lies.fio", "--note", "lies.note", "--after-writes", "800", *servers.links())
    servers.cut()
    servers.restart()
    found = reports(fleet("check", "lies.fio", "--note", "lies.note", *servers.links())[1])
    due = written(read("lies.log"))
    tell("a target that loses writes", (status, len(due) > 1, {at: it[3] for at, it in found.items()}), (0, True, {(0, 0): [], (0, 1): [], (1, 0): due[:32], (1, 1): []}))
    tell("each write was told as done", [it[0] for it in found.values()], [200] * 4)
    servers.cut()


def killed_nodes():
    """Servers and the client are killed at random moments, again and again; where a check comes to
    its end, it has no false fault."""
    job_file("kills.fio", jobs=2, blocks=512, writes=100_000)
    servers, chance, whole, kills = Servers("kills", 3), random.Random(7), 0, 0
    for turn, slow in turns(10 * as_often["killed"], lambda: whole >= 2):
        writing = subprocess.Popen([FLEET, "write", "kills.fio", "--note", "kills.note", "--after", f"{slow * chance.uniform(0.1, 0.6):.2f}", "--wait", str(3 * slow), *servers.links()], **QUIET)
        for _ in range(chance.randrange(4)):
            time.sleep(slow * chance.uniform(0, 0.3))
            victim, kills = chance.randrange(4), kills + 1
            if victim == 3:
                writing.kill()
            else:
                servers.kill(victim)
                servers.start(victim)
        writing.wait()
        servers.cut()
        servers.restart()
        status, printed, _ = fleet("check", "kills.fio", "--note", "kills.note", "--wait", str(10 * slow), *servers.links())
        by_state = {at: it for at, it in reports(printed).items()}
        tell(f"killed nodes, turn {turn}: no false fault", [at for at, it in by_state.items() if it[1]], [])
        tell(f"killed nodes, turn {turn}: its check ends, and what is sound is whole", (status is not None, jobs_left_out(printed, 3, 2) if status == 0 else []), (True, []))
        whole += status == 0
    print(f"killed_nodes: {kills} kills at random and {3 * (turn + 1)} of servers at their cuts, {whole} checks by all states")
    tell("checks came to their end", whole >= 2, True)
    servers.cut()


def states_told(number, note, servers):
    """Whether a check of that run, by that note, tells of each job that it went by a state."""
    printed = fleet("check", "notes.fio", "--run", number, "--note", note, "--json", *servers.links())[1]
    return [json.loads(it)["by_state"] for it in printed.splitlines() if "by_state" in it]


def lost_notes():
    """The client's note is lost, torn, or another node's; two clients, two servers of one note."""
    job_file("notes.fio", jobs=1, blocks=64, writes=512)
    servers = Servers("notes", 2, jobs=1)
    status, printed, _ = fleet_until_done(servers, "notes.fio", "--note", "notes.note", *servers.links())
    tell("a fleet of one job writes", status, 0)
    number = re.search(r"run (\d+)", printed)[1]
    servers.cut()
    servers.restart()
    status, printed, _ = fleet("check", "notes.fio", "--note", "notes.note", *servers.links())
    tell("by its own note it is sound", (status, [it[1] for it in reports(printed).values()]), (0, [0, 0]))
    tell("as JSON, too", states_told(number, "notes.note", servers), [True] * 2)
    servers.cut()
    servers.restart() # (till then they serve the other fleet)
    status, printed, _ = fleet("check", "notes.fio", "--run", number, "--note", "other.note", *servers.links())
    tell("without the client's note there is no verdict", (status, printed.splitlines()[-1].split(",")[0] if printed else ""), (3, f"run {number}: no verdict"))
    tell("as JSON it is a full pass", states_told(number, "other.note", servers), [False] * 2)
    note = bytearray(read("notes.note"))
    note[-1] ^= 1
    write("torn.note", bytes(note))
    tell_has("a note that is torn", fleet("check", "notes.fio", "--note", "torn.note", *servers.links())[2], "its bytes aren't those that were kept")
    tell_has("a server's note", fleet("check", "notes.fio", "--note", "notes-0.note", *servers.links())[2], "keeps its note there")
    shutil.copy("notes-0.note", "copied.note")
    tell_has("a server's note", fleet("check", "notes.fio", "--note", "copied.note", *servers.links())[2], "another node's note")
    tell_has("another server's note", run("1", "notes-x", "--note", "copied.note", program=SERVER)[2], "another node's note")
    note = bytearray(read("copied.note"))
    note[-1] ^= 1
    write("copied.note", bytes(note))
    tell_has("a server's note that is torn", run("0", "notes-x", "--note", "copied.note", program=SERVER)[2], "its bytes aren't those that were kept")
    tell_has("a second server", run("0", "notes-x", "--note", "notes-0.note", program=SERVER)[2], "another node keeps its note there")
    tell_has("a target that another server has", run("1", "notes-0-0", "--note", "second.note", program=SERVER)[2], "another harness is at work on it")
    servers.cut()


def bad_links():
    """Frames are lost, repeated, brought late, and links end in the middle of one: what comes of it
    takes longer, and is the same."""
    job_file("bad.fio", jobs=2, blocks=128, writes=20_000)
    servers = Servers("bad", 3)
    links = servers.links(f"exec {shlex.quote(f'{TOP}/tools/bad-link')} --cut 0.03")
    status, printed, said = fleet_until_done(servers, "bad.fio", "--note", "bad.note", *links)
    tell("a fleet writes over bad links", (status, "the states are kept" in printed), (0, True))
    servers.cut()
    servers.restart()
    status, printed, _ = fleet("check", "bad.fio", "--note", "bad.note", *links)
    tell("its check", (status, [it[1] for it in reports(printed).values()]), (0, [0] * 6))
    servers.cut()


def own_cuts():
    """Each server has its own machine cut, once the client has acknowledged its states."""
    job_file("own.fio", jobs=2, blocks=128, writes=100_000)
    servers = Servers("own", 0)
    servers.count, servers.running = 2, [None, None]
    for server in range(2):
        servers.start(server, options=["--cut", "kill -9 $PPID"])
    status, _, _ = fleet_until_done(servers, "own.fio", "--note", "own.note", "--act-cut", *servers.links())
    tell("each server was cut", (status, [it.wait(HANG) for it in servers.running]), (0, [-signal.SIGKILL] * 2))
    servers.restart()
    status, printed, _ = fleet("check", "own.fio", "--note", "own.note", *servers.links())
    tell("and is sound", (status, [it[1] for it in reports(printed).values()]), (0, [0] * 4))
    servers.cut()


def full_disk():
    """A note that can't be kept ends its node: what was kept before is what it has."""
    job_file("disk.fio", jobs=1, blocks=64, writes=200)
    servers = Servers("disk", 1, jobs=1)
    fleet("write", "disk.fio", "--note", "disk.note", *servers.links())
    before = read("disk.note")
    os.mkdir("disk.note.new") # (a note is written there first)
    status, _, said = fleet("write", "disk.fio", "--note", "disk.note", *servers.links())
    tell("the client ends", (status, "disk.note" in said), (2, True))
    os.rmdir("disk.note.new")
    tell("its note is as it was", read("disk.note"), before)
    tell("and the run before is sound", fleet("check", "disk.fio", "--note", "disk.note", *servers.links())[0], 0)
    servers.cut()


def places_of_jobs():
    """Two jobs have one target: the blocks of one between those of the other."""
    job_file("places.fio", jobs=2, blocks=32, writes=64)
    servers = Servers("places", 0)
    servers.count, servers.running, servers.places = 1, [None], ["one@0/8192", "one@4096/8192"]
    servers.start(0)
    fleet("write", "places.fio", "--note", "places.note", "--after-writes", "128", *servers.links())
    servers.cut()
    data = bytearray(read("one"))
    front = lambda job, block: struct.unpack(">QIIQQ", data[job * BLOCK + block * 2 * BLOCK :][:32])
    tell("each block lies at its place", [front(job, block)[2::2] for job in range(2) for block in range(32)], [(job, block) for job in range(2) for block in range(32)])
    data[BLOCK + 3 * 2 * BLOCK + 700] ^= 8
    write("one", bytes(data))
    servers.start(0)
    status, printed, _ = fleet("check", "places.fio", "--note", "places.note", *servers.links())
    tell("and is read there", (status, {at: it[3] for at, it in reports(printed).items()}), (1, {(0, 0): [], (0, 1): [3]}))
    servers.cut()


def full_server_disk():
    """A server that can't keep its note says nothing that rests on it: its Started doesn't come."""
    job_file("note.fio", jobs=1, blocks=64, writes=200)
    servers = Servers("note", 1, jobs=1)
    os.mkdir("note-0.note.new")
    status, _, said = fleet("write", "note.fio", "--note", "c.note", "--wait", "10", *servers.links())
    tell("the run isn't begun", (status, re.findall(r"is begun: (.*)", said), servers.running[0].wait(HANG)), (2, ["server 0 no answer"], 2))
    os.rmdir("note-0.note.new")
    servers.start(0)
    tell("and then it is", fleet("write", "note.fio", "--note", "c.note", *servers.links())[0], 0)
    tell("and sound", fleet("check", "note.fio", "--note", "c.note", *servers.links())[0], 0)
    servers.cut()


def failing_target():
    """A write that fails is told so, and is no fault; a block that can't be read ends its check."""
    job_file("fail.fio", jobs=1, blocks=64, writes=64)
    servers = Servers("fail", 0, jobs=1)
    servers.count, servers.running = 1, [None]
    servers.start(0, {"LD_PRELOAD": LIAR, "LIE": "failed:20", "LIE_TARGET": "fail-0-0"})
    status, printed, said = fleet_until(" failed: ", servers.said(0), "fail.fio", "--note", "fail.note", "--json", *servers.links())
    state, told = json.loads(printed.splitlines()[0]), re.findall(r"^fleet: the writes of run \d+: server 0 (\d+)(?: of 64)? done, 1 failed$", said, re.M)
    tell("which is told apart", [0 < int(it) <= state["done"] < state["ordered"] < 64 for it in told], [True])
    servers.cut()
    servers.start(0)
    words = ["check", "fail.fio", "--note", "fail.note"]
    checked, printed, _ = fleet(*words, *servers.links())
    found = reports(printed).get((0, 0), (0,))
    tell("a write fails", (status, checked, 0 < found[0] < 64, found[1:]), (2, 0, True, (0, "whole", [])))
    servers.cut()
    block = earliest(read("fail-0-0"))
    servers.start(0, {"LD_PRELOAD": LIAR, "LIE": "none:1", "LIE_TARGET": "fail-0-0", "LIE_UNREADABLE": str(block * BLOCK)})
    status, printed, _ = fleet(*words, *servers.links())
    tell("a block that can't be read", (status, re.findall(r"end read (\d+)", printed)), (2, [str(block)]))
    servers.cut()


def cycles_by_a_book():
    """A series of cycles, by an address book; the second run's target loses writes."""
    job_file("cycle.fio", jobs=1, blocks=64, writes=128)
    start = f"{shlex.quote(SERVER)} 0 cycle-0-0 --note cycle-0.note --cached >/dev/null 2>&1 </dev/null & echo $! >cycle.pid"
    write("on", f"[ -f lie ] && export LD_PRELOAD={LIAR} LIE=lost:7 LIE_TARGET=cycle-0-0 LIE_LOG=cycle.log\n{start}\nunset LD_PRELOAD\nuntil [ -S cycle-0.note.socket ]; do sleep 0.01; done\n")
    write("off", "kill -9 $(cat cycle.pid); rm -f cycle-0.note.socket\n")
    link = f"exec {SERVER} link --note cycle-0.note 2>/dev/null"
    write("fleet.toml", f'servers = ["{link}"]\nnote = "cycle.note"\noff = "sh ./off"\non = "sh ./on"\n')
    subprocess.run(["sh", "./on"], check=True)
    words = ["cycle", "cycle.fio", "folder", "--every", "30..31", "--cycles", "2", "--pause", "0", "--seed", "1"]
    status, printed, said = fleet(*words)
    tell("two cycles", (status, [it.split(",")[1:6] for it in printed.splitlines()]), (0, [[" 128 ordered", " 128 done", " 64 checked", " 0 faults", " status 0"]] * 2))
    subprocess.run(["sh", "./off"], check=True)
    write("lie", "")
    subprocess.run(["sh", "./on"], check=True)
    status, printed, _ = fleet(*words[:2], "lies", *words[3:], "--json")
    told = [json.loads(it) for it in printed.splitlines()]
    tell("it stops at the first with faults", (status, len(told), told[0]["faults"]), (1, 1, len(written(read("cycle.log")))))
    tell("each folder has its cycles", [[json.loads(line)["status"] for line in read(f"{it}/cycles.jsonl").splitlines()] for it in ("folder", "lies")], [[0, 0], [1]])
    tell("a series that is there", fleet(*words)[0], 2)
    subprocess.run(["sh", "./off"], check=True)
    subprocess.run(["sh", "./on"], check=True)
    os.remove("lie")
    status, printed, _ = fleet(*words[:2], "goes-on", *words[3:], "--keep-going", "--json")
    tell("a series that goes on behind a cycle with faults", (status, [json.loads(it)["status"] for it in printed.splitlines()]), (1, [1, 0]))
    subprocess.run(["sh", "./off"], check=True)


def refused_words():
    """What the two programs refuse, and how."""
    tell("no words", run(program=SERVER)[0], 2)
    tell("help", (run("--help", program=SERVER)[0], run("--help", program=FLEET)[0]), (0, 0))
    tell_has("no note", run("0", "t", program=SERVER)[2], "--note: this has to be said")
    tell_has("a server's number", run("8", "t", "--note", "n", program=SERVER)[2], "0 to 7")
    tell_has("no server", fleet("write", "fleet.fio", "--note", "n")[2], "--server has to be said")
    write("full", b"some other bytes")
    tell_has("a target that holds other bytes", run("0", "full", "--note", "full.note", program=SERVER)[2], "it holds other bytes")
    tell("is as it was", read("full"), b"some other bytes")
