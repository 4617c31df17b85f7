"""A fleet's ledgers: what an earlier check found sound, and no run has written since, is asked for at each
server and job. What is lost at rest is told once, there; and nothing is told of targets that keep all."""
import json
import os
import random
import re
import shlex
import struct
import subprocess
import time

from ledger_fleets import LEDGERS, PLACES, Kept, all_sound, rests, tell_rests
from serving import FLEET, SERVER, fleet, job_file, reports
from trying import BLOCK, LIAR, QUIET, as_often, await_text, read, tell, write


def fleet_ledgers():
    """Cycles of targets that keep all, and one block that is lost at rest: it is told there, and once."""
    servers = Kept("rested")
    first = servers.run(servers.all)
    tell_rests("the first check", servers.check(servers.all), 0, all_sound())
    tell("each place has its ledger", sorted(os.listdir("L")), LEDGERS)
    for turn in range(3):
        servers.restart()
        servers.run(servers.few)
        tell_rests(f"a later one, {turn}", servers.check(servers.few), 0, all_sound())
    servers.restart()
    last = servers.run(servers.few)
    lost, flown = servers.holders(1, 0, first)[3], servers.holders(0, 1, last)[0]
    number = struct.unpack_from(">Q", read("rested-1-0"), lost * BLOCK + 16)[0]
    kept = {it: read(f"L/{it}") for it in LEDGERS}
    servers.zero(1, 0, lost)
    servers.zero(0, 1, flown)
    servers.restart()
    status, printed, _ = fleet("check", servers.few, *servers.words())
    tell("by the states alone", (status, {at: it[3] for at, it in reports(printed).items() if it[3]}), (1, {(0, 1): [flown]}))
    tell("which leaves the ledgers as they are", {it: read(f"L/{it}") for it in LEDGERS}, kept)
    servers.cut()
    found = servers.check(servers.few)
    tell_rests("by the ledgers", found, 1, all_sound() | {(1, 0): (64, 1)}, 1)
    tell("which block was lost at rest", re.findall(r"^server .*at-rest.*$", found[1], re.M), [f"server 1 job 0: block {lost} at-rest: wants write {number} of run {first}, holds zeros"])
    tell("and the report stays as it is", {at: it[3] for at, it in reports(found[1]).items() if it[3]}, {(0, 1): [flown]})
    tell_rests("once", servers.check(servers.few), 1, all_sound() | {(1, 0): (63, 0), (0, 1): (63, 0)})
    servers.restart()
    servers.run(servers.few)
    told_for_programs(servers, servers.holders(1, 1, first)[0])


def told_for_programs(servers, block):
    """By --json a loss has its line, its place has a row, and the verdict is faults."""
    servers.zero(1, 1, block)
    status, printed, _ = servers.check(servers.few, "--json", "--map")
    told = [json.loads(it) for it in printed.splitlines()]
    tell("for programs", [(it["server"], it["job"], it["block"], it["kind"]) for it in told if "block" in it], [(1, 1, block, "at-rest")])
    tell("how many", {(it["server"], it["job"]): it["at_rest"] for it in told if "by_ledger" in it}, {it: int(it == (1, 1)) for it in PLACES})
    tell("and the verdict", (status, told[-1]["verdict"], told[-1]["faults"], told[-1]["at_rest"]), (1, "faults", 0, 1))


def fleet_runs_without_states():
    """Runs whose states were lost are taken as such: what they wrote is told as no loss, and of what they
    can't have written is still asked."""
    servers = Kept("stateless")
    first = servers.run(servers.all)
    tell_rests("the first check", servers.check(servers.all), 0, all_sound())
    servers.restart()
    whole = servers.run(servers.few) # (so that no block of the first run is one that the later ones may have written)
    lie = {"LD_PRELOAD": LIAR, "LIE": "stalled:1:11", "LIE_TARGET": "stateless-1-0", "LIE_LOG": "stalled.log"}
    servers.start(0)
    servers.start(1, lie)
    write("stalled.log", "")
    writing = subprocess.Popen([FLEET, "write", servers.few, *servers.words("--trigger-file", "pulled", "--wait", "10")], **QUIET)
    await_text("stalled.log", "stalled")
    servers.kill(1)
    write("pulled", "")
    tell("a server is killed within a run", writing.wait(), 2)
    servers.kill(0)
    tell("it had written by then", len(servers.holders(1, 0, first) + servers.holders(1, 0, whole)) < 64, True)
    killed_client(servers)
    servers.restart()
    last = servers.run(job_file("fewer.fio", blocks=64, writes=3))
    lost = servers.holders(1, 0, first)[0]
    servers.zero(1, 0, lost)
    found = servers.check("fewer.fio")
    told = rests(found[1])
    tell("no write of theirs is told as a loss", (found[0], {at: it[1] for at, it in told.items()}), (1, {it: int(it == (1, 0)) for it in PLACES}))
    tell("and what they left is asked for", re.findall(r"server (\d) job (\d): block (\d+) at-rest", found[1]), [("1", "0", str(lost))])
    tell("at each place but what they may have written", {at: 64 - 12 <= it[0] < 64 for at, it in told.items()}, {it: True for it in PLACES})
    tell("the run that is taken last", f" run {last}\n".encode() in read("L/server-1-job-0.ledger"), True)


def killed_client(servers):
    """A client is killed within a run: no state of it is anywhere."""
    lie = {"LD_PRELOAD": LIAR, "LIE": "stalled:1:8", "LIE_TARGET": "-0", "LIE_LOG": "killed.log"}
    write("killed.log", "")
    for server in range(2):
        servers.start(server, lie)
    writing = subprocess.Popen([FLEET, "write", servers.few, *servers.words("--after", "600")], start_new_session=True, **QUIET)
    await_text("killed.log", "stalled")
    os.killpg(writing.pid, 9)
    writing.wait()
    servers.cut()


def fleet_runs_unchecked():
    """A run that was never checked is taken by its state before the next one; and what neither has written is
    still asked for."""
    servers = Kept("unchecked")
    first = servers.run(servers.all)
    tell_rests("the first check", servers.check(servers.all), 0, all_sound())
    fewer = job_file("fewer.fio", blocks=64, writes=3)
    for file in (servers.few, fewer):
        servers.restart()
        servers.run(file)
    lost = servers.holders(0, 0, first)[0]
    servers.zero(0, 0, lost)
    found = servers.check(fewer)
    tell_rests("two runs later", found, 1, all_sound() | {(0, 0): (64, 1)}, 1)
    servers.restart()
    status, printed, said = fleet("check", fewer, *servers.words("--ledger", "L", "--run", str(first)))
    servers.cut()
    tell("an earlier run", (status, printed, "is of the last run" in said), (2, "", True))


def fleet_ledgers_of_killed_nodes():
    """Servers and the client are killed at random moments within runs of several jobs, of which some are never
    checked: nothing is told as lost at rest of targets that keep all."""
    servers, chance, kills, asked = Kept("random"), random.Random(11), 0, 0
    servers.run(servers.all)
    tell_rests("the first check", servers.check(servers.all), 0, all_sound())
    files = [job_file(f"random-{writes}.fio", blocks=64, writes=writes) for writes in (6, 20, 64, 100_000)]
    servers.lies = {it: {"LD_PRELOAD": LIAR, "LIE": "slow:9", "LIE_TARGET": f"random-{it}-0"} for it in range(2)}
    for turn in range(12 * as_often["killed"]):
        servers.restart()
        file = chance.choice(files)
        writing = subprocess.Popen([FLEET, "write", file, *servers.words("--after", f"{chance.uniform(0.1, 0.6):.2f}", "--wait", "3")], **QUIET)
        for _ in range(chance.choice((0, 0, 1, 2))):
            time.sleep(chance.uniform(0.1, 0.8))
            victim, kills = chance.randrange(3), kills + 1
            if victim == 2:
                writing.kill()
            else:
                servers.kill(victim)
                servers.start(victim, servers.lies[victim])
        writing.wait()
        servers.cut()
        if chance.random() < 0.3:
            continue
        status, printed, said = servers.check(file, "--wait", "10")
        told = rests(printed)
        asked += sum(it[0] for it in told.values())
        tell(f"killed nodes, turn {turn}: nothing is lost at rest", (status is not None, {at: it[1] for at, it in told.items() if it[1]}, "put aside" in said), (True, {}, False))
    print(f"fleet_ledgers_of_killed_nodes: {kills} kills, {asked} blocks checked by ledgers")
    tell("ledgers asked for blocks", asked > 0, True)


def fleet_ledgers_killed():
    """The client is killed as it keeps a ledger: before that the loss is told again, and behind it the line of
    the loss was there."""
    servers = Kept("stopped")
    first = servers.run(servers.all)
    tell_rests("the first check", servers.check(servers.all), 0, all_sound())
    servers.restart()
    servers.run(servers.few)
    lost = servers.holders(0, 1, first)[0]
    servers.zero(0, 1, lost)
    due = [f"server 0 job 1: block {lost} at-rest"]
    for moment, again in (("before", due), ("behind", [])):
        status, printed, _ = servers.check(servers.few, env={"LD_PRELOAD": LIAR, "LIE_STOPS": f"{moment}/server-0-job-1.ledger"})
        tell(f"{moment} the ledger is there: the loss was told", (status, re.findall(r"^server .* at-rest", printed, re.M), "lost at rest" in printed.splitlines()[-1]), (-9, due, True))
        tell(f"{moment}: no last line", printed.splitlines()[-1].startswith("server 0 job 1: by its ledger"), True)
        status, printed, _ = servers.check(servers.few, env={"LD_PRELOAD": LIAR, "LIE_STOPS": "before/server-0-job-1.ledger"})
        tell(f"{moment}: and by the next check", re.findall(r"^server .* at-rest", printed, re.M), again)
    tell_rests("and then the rest is checked", servers.check(servers.few), 0, all_sound() | {(0, 1): (63, 0)})


def fleet_cycles_by_ledgers():
    """A series goes by ledgers: the cycle in which a target has lost what an earlier one found sound says so,
    once, wherever the client is killed behind its line."""
    job_file("series.fio", jobs=1, blocks=64, writes=128)
    job_file("short.fio", jobs=1, blocks=64, writes=12)
    start = f"{shlex.quote(SERVER)} 0 series-0-0 --note series-0.note >/dev/null 2>>series.said </dev/null & echo $! >series.pid"
    write("on", f"[ -f lie ] && export LD_PRELOAD={LIAR} LIE=$(cat lie) LIE_TARGET=series-0-0 LIE_LOG=series.log\n{start}\nunset LD_PRELOAD\nuntil [ -S series-0.note.socket ]; do sleep 0.01; done\nrm -f lie\n")
    write("off", "kill -9 $(cat series.pid); rm -f series-0.note.socket\n")
    link = f"exec {SERVER} link --note series-0.note 2>/dev/null"
    write("fleet.toml", f'servers = ["{link}"]\nnote = "series.note"\nledger = "K"\noff = "sh ./off"\non = "sh ./on"\n')

    def series(file, folder, *more, env=None):
        status, printed, _ = fleet("cycle", file, folder, "--every", "30", "--pause", "0", "--json", *more, env=env or {})
        return status, [json.loads(it)["at_rest"] for it in printed.splitlines()]

    subprocess.run(["sh", "./on"], check=True)
    tell("three cycles", series("series.fio", "whole", "--cycles", "3"), (0, [0, 0, 0]))
    tell("and three of few writes", series("short.fio", "short", "--cycles", "3"), (0, [0, 0, 0]))
    write("lie", "stalled:1:4")
    write("series.log", "")
    killer = subprocess.Popen(["sh", "-c", "until grep -q stalled series.log; do sleep 0.01; done; kill -9 $(cat series.pid)"])
    status, _ = series("short.fio", "killed", "--cycles", "3", "--cut-anyway", "--keep-going", "--every", "10", "--wait", "10")
    killer.wait()
    tell("behind a run without a state the ledger goes on", (status, [it["reports"][0].get("by_ledger") for it in rows_in("killed")]), (2, [64, None, 64]))
    subprocess.run(["sh", "./off"], check=True)
    write("lie", "forgotten:12")
    write("series.log", "")
    subprocess.run(["sh", "./on"], check=True)
    killed_series(series)


def rows_in(folder):
    """The lines of a series, none where there is no file of them."""
    lines = read(f"{folder}/cycles.jsonl").splitlines() if os.path.exists(f"{folder}/cycles.jsonl") else []
    return [json.loads(it) for it in lines]


def losses(folder):
    """Of each cycle how many blocks were lost at rest, and how many have a line."""
    return [(it["at_rest"], sum(len(at["lines"]) for at in it["reports"])) for it in rows_in(folder)]


def killed_series(series):
    """A target has lost a block, and the client is killed before the cycle's line, and then behind it."""
    env = {"LD_PRELOAD": LIAR, "LIE_STOPS": "behind/server-0-job-0.ledger.next"}
    tell("a target that forgets, and a client that is killed", series("short.fio", "forgets", "--cycles", "1", env=env), (-9, []))
    lost = read("series.log").decode().count("forgotten")
    tell("before the line", (lost, losses("forgets")), (1, []))
    subprocess.run(["sh", "./off"], check=True)
    env["LIE_STOPS"] = "before/server-0-job-0.ledger"
    tell("what no line tells is told by the next", (series("short.fio", "forgets", "--cycles", "1", "--resume", env=env), losses("forgets")), ((-9, []), [(lost, lost)]))
    subprocess.run(["sh", "./off"], check=True)
    tell("it isn't told again", series("short.fio", "forgets", "--cycles", "2", "--resume", "--keep-going"), (1, [0]))
    subprocess.run(["sh", "./off"], check=True)
