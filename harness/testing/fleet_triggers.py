"""What pulls a fleet's trigger, what is said of its writes meanwhile, and the table at the end."""
import json
import re
import sys
from types import SimpleNamespace

from serving import TOP, Servers, fleet, fleet_until, job_file
from trying import LIAR, tell, tell_has

sys.path.insert(0, f"{TOP}/harness/client")

from progress import Progress
from queries import ENDS, ROW, ROWS, Answers, query


def rows(printed):
    """The rows of a table of writes, by server and job: ordered, done, in flight."""
    numbers = [list(map(int, line.split())) for line in printed.splitlines() if re.fullmatch(r"[\d ]+", line)]
    return {(it[0], it[1]): it[2:5] for it in numbers}


def triggers():
    """A write that never comes back is not among those that are done: the trigger waits for one more,
    and the table tells it as in flight."""
    job_file("after.fio", jobs=1, blocks=64, writes=64)
    stalled = {"LD_PRELOAD": LIAR, "LIE": "stalled:64", "LIE_TARGET": "after-1-0"}
    servers = Servers("after", 0, jobs=1)
    servers.count, servers.running = 2, [None, None]
    words, idle = ["after.fio", "--note", "after.note"], "server 0 0 writes a second, 64 of 64 done; server 1 0 writes a second, 63 of 64 done\n"
    for writes, why in ((127, "127 writes are done"), (128, "pulled is there")):
        servers.start(0)
        servers.start(1, stalled)
        own = [*words, "--after-writes", str(writes), *servers.links()]
        status, printed, said = fleet("write", *own) if writes < 128 else fleet_until(idle, "fleet.said", *own)
        tell(f"a trigger after {writes} writes", (status, re.findall("fleet: triggered: (.*)", said)), (0, [why]))
        tell(f"the table after {writes} writes", rows(printed), {(0, 0): [64, 64, 0], (1, 0): [64, 63, 1]})
        tell(f"how far they are after {writes} writes", len(re.findall(r": server 0 64(?: of 64)? done; server 1 63(?: of 64)? done$", said, re.M)), 1)
        servers.cut()
    speeds = [[int(it) for it in re.findall(rf"^fleet: \d+ s: .*\bserver {at} (\d+) writes a second, ", said, re.M)] for at in range(2)]
    tell("what is said each second", [(any(it), it[-1:]) for it in speeds], [(True, [0])] * 2)
    servers.restart()
    status, printed, _ = fleet("check", "after.fio", "--note", "after.note", "--json", *servers.links())
    told = [json.loads(it) for it in printed.splitlines()]
    tell("their check, for programs", (status, [it["faults"] for it in told], told[-1]["verdict"]), (0, [0, 0, 0], "sound"))
    servers.cut()


def triggers_by_run():
    """Writes of an earlier run don't count; a run is told as JSON."""
    job_file("many.fio", jobs=2, blocks=512, writes=500_000)
    servers = Servers("many", 2)
    for turn in range(2):
        status, printed, said = fleet("write", "many.fio", "--note", "many.note", "--after-writes", "4000", "--json", *servers.links())
        told = [json.loads(it) for it in printed.splitlines()]
        tell(f"run {turn} of two", (status, [(it["server"], it["job"]) for it in told[:-1]], told[-1]["kept"]), (0, [(0, 0), (0, 1), (1, 0), (1, 1)], True))
        tell(f"run {turn} has as many writes as were asked for", sum(it["done"] for it in told[:-1]) >= 4000, True)
        tell(f"run {turn} has writes in flight, at most its depth", all(0 <= it["ordered"] - it["done"] == it["in flight"] <= 8 for it in told[:-1]), True)
        tell_has(f"run {turn}: why it was triggered", said, "writes are done")
    servers.cut()
    told_words()


def told_words():
    """What is said of servers, by what they have answered."""
    answers = Answers(None)
    progress = Progress(SimpleNamespace(servers=[answers]), 7, lambda: None)
    tell("a server that hasn't answered", progress.words(0, answers.ends_of(7), 1), "server 0 doesn't say")
    why = "t: write 3 to block 5 failed: Input/output error"
    answers.hear(query(ENDS, ROWS.pack(3, 0) + ROW.pack(0, 7, 5, 1) + ROW.pack(1, 6, 100, 2) + ROW.pack(2, 7, 30, 0) + why.encode()))
    ends = [answers.ends_of(run) for run in (6, 7, 8)]
    tell("jobs whose last run is another", [(it.done, it.failed, it.why) for it in ends], [(100, 2, why), (35, 1, why), (0, 0, "")])
    for body in (b"", bytes(11), ROWS.pack(3, 0) + bytes(80), b"x" * 1000):
        answers.hear(query(ENDS, body))
    tell("an answer that can't be read is none", (answers.ends_of(7).done, answers.ends_of(7).failed), (35, 1))
    progress.step()
    tell("and without fiocut", progress.words(0, answers.ends_of(7), 2), "server 0 18 writes a second, 35 done, 1 failed")
    tell("and at the end", progress.words(0, answers.ends_of(7)), "server 0 35 done, 1 failed")
