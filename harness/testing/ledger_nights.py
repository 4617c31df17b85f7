"""Nights by a ledger: what a drive forgets at rest is told at the next cycle, once, wherever the witness
is stopped; and nothing is told of a drive that keeps all."""
import os
import random
import re
import shutil
import signal
import subprocess

from ledgers import taken
from nights import CUT, last_lines, rows_of
from trying import BLOCK, HANG, LIAR, QUIET, WITNESS, as_often, await_file, await_that, job, read, run_of, stamp, state_in, tell, tell_has, write
from witness import counted, cycles_in, endless, link, until_told, witness

TRUSTED = (*CUT[:4], "--trust-off", "--seed", "7")
STOPS = ("before/begun", "behind/begun", "before/cycle-000002.state", "behind/cycle-000002.state", "before/checked", "behind/checked", "before/ledger", "behind/ledger")
LONG, SHORT = ("--every", "0.7..0.7"), ("--every", "0.12..0.12")


class Model:
    """What each block has to hold, by the states of runs and by the target's log: each entry the writes of
    which the block has to hold one."""

    def __init__(self):
        self.entries = {}

    def take(self, state, log):
        """Takes a run, and returns the blocks to which it has completed a write."""
        issued, done = counted(state_in(state))
        its, of_block = run_of(state), {}
        for kind, block, number in (line.split() for line in read(log).decode().splitlines()):
            if kind != "forgotten":
                of_block.setdefault(int(block), set()).add(int(number))
        last = {block: max(numbers & done) for block, numbers in of_block.items() if numbers & done}
        for block, numbers in of_block.items():
            flying = [(its, it) for it in numbers if it < issued and it not in done]
            self.entries[block] = [(its, last[block]), *flying] if block in last else (self.entries.get(block) or []) + flying if self.entries.get(block) else []
        return set(last)

    def check(self, data):
        """Returns the blocks that are lost, and goes on from what was found."""
        lost = set()
        for block, entry in self.entries.items():
            held = [it for it in entry if data[block * BLOCK : (block + 1) * BLOCK] == stamp(it[0], 0, it[1], block)]
            lost |= {block} if entry and not held else set()
            self.entries[block] = held
        return lost


def blocks_in(report, kind):
    return {int(it.split()[1]) for it in read(report).decode().splitlines() if it.startswith("block ") and f" {kind}: " in it}


def runs_named(report):
    """What the lines of blocks at rest call the runs of the writes that they want, and what they have to."""
    cycles = {it["run"]: it["cycle"] for it in rows_of("night")}
    named = [it for line in read(report).decode().splitlines() if " at-rest: " in line for it in re.findall(r" of run (\d+)( \(cycle \d+\))?", line.partition(", ")[0])]
    return [name for _, name in named], [f" (cycle {cycles[its]})" for its, _ in named]


def cycle_of(model, number, lie, every, folder="night", target="fg", *words, stops=None):
    """One more cycle of a series over a target that lies so: what has to be told of it at rest, and in
    flight."""
    log = os.path.abspath(f"cycle{number}.log")
    env = {"LD_PRELOAD": LIAR, "LIE_TARGET": f"/{target}", "LIE_LOG": log, **({"LIE": lie} if lie else {}), **({"LIE_STOPS": stops} if stops else {})}
    more = ("--resume",) if os.path.exists(f"{folder}/settings") else ()
    write(log, "")
    least = 2500 if every is LONG else 300 # (so that a long one has more to keep than a short one comes to)
    more += ("--off", f"until [ $(wc -l <{log}) -ge {least} ]; do sleep 0.02; done; {TRUSTED[1]}")
    came = witness("cycle", "long.fio", folder, *link(target), *TRUSTED, *every, "--cycles", str(number), "--keep-going", *more, *words, env=env)
    state = f"{folder}/cycle-{number:06d}.state"
    if not os.path.exists(state):
        return came, set(), set()
    told = model.take(state, log)
    lost = model.check(read(target))
    return came, lost - told, lost & told


def nights_by_ledgers():
    """A target that forgets blocks at rest: just these are told, at the next cycle, by lines, numbers and
    the night's last line. Without lies there is no fault, and with a ledger more is checked."""
    model = Model()
    for number, lie, every in ((1, None, LONG), (2, "forgotten:9", SHORT), (3, None, SHORT), (4, "forgotten:30", SHORT), (5, "lost:40", SHORT), (6, None, LONG)):
        (_, printed, _), rest, flight = cycle_of(model, number, lie, every)
        row = rows_of("night")[-1]
        tell(f"cycle {number}, {lie}: faults, and those at rest", (row["cycle"], row["faults"], row["at_rest"]), (number, len(rest | flight), len(rest)))
        tell(f"cycle {number}: which blocks", blocks_in(f"night/cycle-{number:06d}.report", "at-rest"), rest)
        tell(f"cycle {number}: each line at rest names the cycle of each run", *runs_named(f"night/cycle-{number:06d}.report"))
        tell_has(f"cycle {number}: its line", cycles_in(printed)[0], f" {len(rest | flight)} faults")
        tell_has(f"cycle {number}: its line tells those at rest", cycles_in(printed)[0], f", {len(rest)} lost at rest, ")
        tell(f"cycle {number}: some are lost at rest, by a target that forgets", bool(rest), bool(lie and lie.startswith("forgotten")))
        tell(f"cycle {number}: the run that was taken", taken("night/ledger"), (run_of(f"night/cycle-{number:06d}.state"), True))
    rows = rows_of("night")
    tell("more is checked than the run has written", rows[2]["checked"] > rows[2]["told"] + rows[2]["in_flight"], True)
    faults, at_rest, faulty = sum(it["faults"] for it in rows), sum(it["at_rest"] for it in rows), sum(it["faults"] > 0 for it in rows)
    tell_has("the night's last line", last_lines(printed)[0], f"faults: {faults} of {sum(it['checked'] for it in rows)} blocks checked, {at_rest} lost at rest, in {faulty} of 6 cycles; ")


def long_nights_by_ledgers():
    """Many cycles over a target that forgets at rest in half of them: each tells just what is lost. The
    gate has twelve; --times N has so many times as many."""
    model, rng, otherwise, sums = Model(), random.Random(7), [], [0, 0]
    for number in range(1, 12 * as_often["killed"] + 1):
        lie, every = rng.choice((None, "forgotten:5", None, "forgotten:60")), LONG if number % 6 == 1 else SHORT
        _, rest, flight = cycle_of(model, number, lie, every, "many", "mf")
        row = rows_of("many")[-1]
        is_so = (row["cycle"], row["faults"], row["at_rest"]) == (number, len(rest | flight), len(rest)) and blocks_in(f"many/cycle-{number:06d}.report", "at-rest") == rest
        otherwise += [] if is_so else [(number, lie, row, sorted(rest), sorted(flight))]
        sums = [sums[0] + len(rest), sums[1] + row["checked"]]
    tell("cycles that tell otherwise than what is lost", otherwise, [])
    tell("blocks lost at rest, and checked", [it > number for it in sums], [True, True])


def nights_of_honest_drives():
    """No fault is told by a ledger of a drive that keeps what it tells: by flushes over a cache, by a local
    `drive`, of a drive that falls alone, of several, and without a ledger."""
    endless()
    cache = {"LD_PRELOAD": LIAR, "LIE": "cached:64", "LIE_FLUSHES": "1", "LIE_TARGET": "/hc"}
    fallen = {"LD_PRELOAD": LIAR, "LIE": "fallen:1", "LIE_TARGET": "/hf", "LIE_UNTIL": os.path.abspath("fell")}
    for what, words, env, folders in (
        ("by flushes", (*link("hc", "--flush", "8"), *TRUSTED), cache, ["."]),
        ("with --local", (*link("hl"), *TRUSTED, "--local"), {}, ["."]),
        ("of a drive that falls", (*link("hf"), "--off", f"{until_told()}; touch fell", "--on", "rm -f fell", "--drive-only"), fallen, ["."]),
        ("of two drives", ("--link", link("h1")[1].replace("agent;", "agent1;"), "--link", link("h2")[1].replace("agent;", "agent2;"), "--off", f"{until_told('agent1')}; {until_told('agent2')}; kill -KILL $(cat agent1) $(cat agent2)", "--on", "true", "--trust-off"), {}, ["1", "2"]),
    ):
        folder = f"honest {what}"
        for turn, every in enumerate((LONG, SHORT, SHORT)):
            more = ("--resume",) if turn else ("--same-order",) # (so that it is known what each cycle adds)
            status, _, _ = witness("cycle", "long.fio", folder, *words, *every, "--cycles", str(turn + 1), *more, env=env)
            tell(f"{what}, cycle {turn + 1}", status, 0)
        for it in folders:
            rows = rows_of(f"{folder}/{it}")
            tell(f"{what}: no fault", [(row["faults"], row["at_rest"]) for row in rows], [(0, 0)] * 3)
            # (what was in flight, and wasn't told, may have come all the same; and where a second
            # pass began, some of the first may be in flight)
            least, most = ([max(of(it) for it in rows[: at + 1]) for at in range(3)] for of in (lambda it: min(it["told"], 4096 - it["in_flight"]), lambda it: min(it["told"] + it["in_flight"], 4096)))
            tell(f"{what}: what was at rest is checked, too", [low <= row["checked"] <= high for low, row, high in zip(least, rows, most)], [True] * 3)
            tell(f"{what}: its ledger", taken(f"{folder}/{it}/ledger"), (int(rows[2]["run"]), True))


def nights_without_a_ledger():
    """With --no-ledger, or --unit, a series checks each run alone, and leaves no ledger that doesn't know of
    it; so one that is resumed with a ledger tells no false fault."""
    model = Model()
    for number, every, words in ((1, LONG, ()), (2, LONG, ("--no-ledger",)), (3, SHORT, ()), (4, LONG, ("--unit", "4096")), (5, SHORT, ())):
        (_, printed, said), _, _ = cycle_of(model, number, None, every, "without", "wl", *words)
        row = rows_of("without")[-1]
        tell(f"cycle {number} {words}: its faults, and what is told of a ledger", (row["faults"], row["at_rest"], os.path.exists("without/ledger"), "lost at rest" in printed), (0, None if words else 0, not words, not words))
        tell(f"cycle {number}: why", "one goes by whole blocks" in said, "--unit" in words)


def stopped_beside_ledgers():
    """A witness that is killed before or behind each step that keeps a ledger: a cycle is told once and
    taken once, with each loss at rest, and nothing else is told."""
    for lie, stops in (*(("forgotten:9", it) for it in STOPS), *((None, it) for it in ("before/cycle-000002.state", "behind/checked", "behind/ledger"))):
        for name in ("stopping", "st"):
            shutil.rmtree(name) if os.path.isdir(name) else os.path.exists(name) and os.remove(name)
        stopped_beside(lie, stops, f"{lie}, killed {stops}")


def stopped_beside(lie, stops, what):
    """A second cycle that is killed there, and goes on, and a third one."""
    series, model = ("cycle", "long.fio", "stopping", *link("st"), *TRUSTED, *SHORT, "--resume"), Model()
    cycle_of(model, 1, None, LONG, "stopping", "st")
    (status, _, _), rest, flight = cycle_of(model, 2, lie, SHORT, "stopping", "st", stops=stops)
    tell(f"{what}: it was", (status, len(rows_of("stopping"))), (-signal.SIGKILL, 1))
    wrote = os.path.exists("stopping/cycle-000002.state")
    is_lost = not wrote and (read("cycle2.log") != b"" or stops == "behind/begun")
    tell(f"{what}: before that is noted nothing is written", stops != "before/begun" or not is_lost, True)
    came, printed, said = witness(*series, "--cycles", "2")
    rows = rows_of("stopping")
    tell(f"{what}: each cycle is told once", [it["cycle"] for it in rows], [1, 2])
    due = (len(rest | flight), len(rest)) if wrote else (0, 0)
    tell(f"{what}: with its faults", (rows[1]["faults"], rows[1]["at_rest"], came), (*due, 1 if due[0] else 0))
    tell(f"{what}: and its line", len(cycles_in(printed)), 1)
    tell(f"{what}: a lost run is taken first", "left no state: it is taken into the ledger first" in said, is_lost)
    tell(f"{what}: its run is the one taken last", taken("stopping/ledger"), (int(rows[1]["run"]), True))
    witness(*series, "--cycles", "3", "--keep-going")
    tell(f"{what}: nothing is told twice", rows_of("stopping")[2]["faults"], 0)


def stopped_within_runs():
    """A witness that is killed while it writes leaves no state: what its run may have written is asked of
    no more, whether the agent has its own `drive` or not; and what one that is stopped has kept is gone
    by."""
    for what, words in (("", ()), ("with --local", ("--local",))):
        folder, target = f"within {what}".strip(), "wr" + "".join(words).strip("-")
        series = ("cycle", "long.fio", folder, *link(target), *TRUSTED, *words)
        tell(f"a cycle {what}", witness(*series, *LONG, "--cycles", "1")[0], 0)
        log = os.path.abspath(f"{target}.log")
        write(log, "")
        env = {**os.environ, "LD_PRELOAD": LIAR, "LIE_TARGET": f"/{target}", "LIE_LOG": log}
        tell(f"killed before a run is noted {what}", witness(*series, *SHORT, "--cycles", "2", "--resume", env={**env, "LIE_STOPS": "before/begun"})[0], -signal.SIGKILL)
        tell(f"nothing is written before that {what}", read(log), b"")
        ran = subprocess.Popen([WITNESS, *series, "--every", "60..60", "--cycles", "2", "--resume"], env=env, **QUIET)
        await_that(lambda: read(log).count(b"\n") > 2500, "2500 writes")
        ran.kill()
        ran.wait()
        status, printed, said = witness(*series, *SHORT, "--cycles", "2", "--resume", env={"LD_PRELOAD": LIAR}) # (by threads, which write less)
        tell(f"killed while it writes {what}: no false fault", (status, [it["faults"] for it in rows_of(folder)], "left no state: it is taken into the ledger first" in said), (0, [0, 0], True))
        tell(f"and then it goes on {what}", (witness(*series, *LONG, "--cycles", "4", "--resume")[0], [it["faults"] for it in rows_of(folder)]), (0, [0] * 4))
    stopped_by_signal()


def stopped_by_signal():
    """SIGINT has the state kept without a cut: it is taken into the ledger, and what was at rest is still
    asked for."""
    job("wide.fio", blocks=4096, writes=8192, order="write")
    series = ("cycle", "wide.fio", "int", *link("ri"), *TRUSTED)
    written = "dd if=ri bs=4096 skip=3000 count=1 iflag=direct 2>/dev/null | tr -d '\\000' | head -c 1"
    off = ("--off", f'until [ -n "$({written})" ]; do sleep 0.02; done; {TRUSTED[1]}')
    tell("a cycle", witness(*series, *SHORT, *off, "--cycles", "1")[0], 0)
    for name, harms, due in (("sound", False, (0, [0, 0])), ("harmed", True, (1, [0, 1, 0]))):
        shutil.rmtree(name, ignore_errors=True)
        slow = {**os.environ, "LD_PRELOAD": LIAR, "LIE": "slow:9", "LIE_TARGET": "/ri"} # (so that most is at rest by then)
        ran = subprocess.Popen([WITNESS, *series, "--every", "60..60", "--cycles", "9", "--resume"], env=slow, **QUIET)
        number = len(rows_of("int")) + 1
        stopped = f"int/cycle-{number:06d}.stopped"
        before = os.stat("ri").st_mtime_ns # (a page that is read while it is written might stay as it was)
        await_that(lambda: os.stat("ri").st_mtime_ns != before, "a write")
        ran.send_signal(signal.SIGINT)
        tell(f"{name}: SIGINT", (ran.wait(HANG) in (0, 3), os.path.exists(stopped)), (True, True))
        data = bytearray(read("ri"))
        its = run_of(stopped)
        rest = [at for at in range(4096) if data[at * BLOCK : at * BLOCK + 8] != its.to_bytes(8, "big")]
        if harms:
            data[rest[len(rest) // 2] * BLOCK + 900] ^= 1 # (the last ones were in flight at first, and not asked for)
            write("ri", bytes(data))
        status, printed, said = witness(*series, *SHORT, "--cycles", str(number), "--resume", "--keep-going")
        tell(f"{name}: it is taken by its state", f"run {its} was stopped: it is taken into the ledger first" in said, True)
        rows = rows_of("int")[number - 1 :]
        tell(f"{name}: what is told", (status, [(it["faults"], it["at_rest"], it["cut"]) for it in rows]), (1, [(1, 1, "none")]) if harms else (0, [(0, 0, "word")]))


def agents_that_flush():
    """The agent flushes its target before a check by a ledger, and not before another one; where that fails
    nothing is checked. A check by hand goes by a ledger, too, and a run whose state was lost is taken."""
    log = os.path.abspath("agent.log")
    env = {"LD_PRELOAD": LIAR, "LIE_TARGET": "/af", "LIE_READS": "1", "LIE_SYNCS": "1", "LIE_LOG": log}
    tell("a run", witness("write", "two.fio", "as", *link("af"))[0], 0)
    flushed = f"synced {os.path.abspath('af')}"
    for words, due in ((("--ledger", "L"), [flushed, "read /af"]), ((), ["read /af"])):
        write("agent.log", "")
        tell(f"a check {words}", witness("check", "two.fio", "as", *link("af"), *words, env=env)[0], 0)
        tell(f"a check {words}: what the agent does first", read("agent.log").decode().splitlines()[: len(due)], due)
    tell("its ledger is kept", taken("L"), (run_of("as"), True))
    kept = read("L")
    status, printed, said = witness("check", "two.fio", "as", *link("af"), "--ledger", "L", "--wait", "10", env={**env, "LIE_SYNC_FAILS": "1"})
    tell("a flush that fails", (status, printed, "af: it can't be flushed: Input/output error" in said, read("L") == kept), (2, "", True, True))
    write("agent.log", "")
    status, _, _ = witness("cycle", "two.fio", "flushing", *link("af"), *TRUSTED, "--every", "1..1", "--cycles", "1", env=env)
    lines = [it for it in read("agent.log").decode().splitlines() if it in (flushed, "read /af")]
    tell("a cycle", (status, lines[-2:]), (0, [flushed, "read /af"]))
    tell("another run, whose state is lost", witness("write", "two.fio", "gone", *link("af"))[0], 0)
    os.rename("gone", "gone.away")
    status, printed, _ = witness("check", "two.fio", "-", *link("af"), "--ledger", "L", "--lost", whole=True)
    tell("it is taken", (status, "no verdict: by that ledger" in printed), (3, True))
    status, printed, said = witness("check", "two.fio", "as", *link("af"), "--ledger", "L")
    tell("and a state from before it isn't", (status, printed, "knows of a later run" in said), (2, "", True))
    for words, why in ((("-",), "there has to be a file"), (("as", "--lost"), "this wants --ledger"), (("as", "--ledger", "L", "--unit", "512"), "by whole blocks"), (("as", "--ledger", "as"), "it is the state's file")):
        status, printed, said = witness("check", "two.fio", *words, *link("af"))
        tell(f"{words}", (status, printed, why in said), (2, "", True))
