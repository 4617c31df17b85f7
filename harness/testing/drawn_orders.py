"""Orders that are drawn: each run of a night has one of its own, so that a night covers its region; a
series that is resumed draws the same, and what a run has written is checked by its own order."""
import os
import re
import shutil
import signal
import subprocess

from crc32c import crc32c
from dumps import tell_kept
from ledger_nights import LONG, SHORT, TRUSTED, Model, cycle_of
from ledgers import taken
from nights import rows_of
from trying import BLOCK, LIAR, QUIET, WITNESS, await_that, job, read, report, run, run_of, state_in, tell, write
from witness import cycles_in, link, until_told, witness

FRONT = b"# drawn by drive-witness cycle, for this run\n[global]\nrandseed="
SAID = "says randseed itself: all runs have that order"


def state_of(folder, cycle, ending="state"):
    return f"{folder}/cycle-{cycle:06d}.{ending}"


def text_in(state):
    """The job file in a state's file, as the run was ordered by it."""
    data = read(state)
    length = int(re.search(rb"^text (\d+)$", data, re.M)[1])
    end = len(data) - len(state_in(state))
    return data[end - length : end]


def with_text(state, text):
    """The same file with another text, and its sum."""
    data, bare, old = read(state), state_in(state), text_in(state)
    front, _, rest = data[: len(data) - len(bare) - len(old)].partition(b"\nrun ")
    rest = b"run " + re.sub(rb"^text \d+$", b"text %d" % len(text), rest, flags=re.M) + text + bare
    return front[:-8] + b"%08x\n" % crc32c(rest) + rest


def seed_in(text, job_file):
    """The seed that a run was ordered by, where its text is the job file behind one that was drawn."""
    digits = text[len(FRONT) :].partition(b"\n")[0]
    return int(digits) if digits.isdigit() and text == FRONT + digits + b"\n" + read(job_file) else None


def seeds_of(folder, cycles, job_file="long.fio"):
    return [seed_in(text_in(state_of(folder, it)), job_file) for it in range(1, cycles + 1)]


def jobs_in(text):
    """What fiocut says of each job's seed."""
    said = subprocess.run([os.environ["FIOCUT"], "jobs"], input=text, stdout=subprocess.PIPE).stdout.decode()
    return [int(it) for it in re.findall(r"^job .* seed=(\d+) ", said, re.M)]


def series(job_file, folder, target, cycles, *words, least=100, seed="7", **stops):
    """A series, or more of it, each of whose cuts comes behind so many writes at the least."""
    log = os.path.abspath(f"{target}.log")
    write(log, "")
    off = f"until [ $(wc -l <{log}) -ge {least} ]; do sleep 0.02; done; {TRUSTED[1]}; : >{log}"
    env = {"LD_PRELOAD": LIAR, "LIE_TARGET": f"/{target}", "LIE_LOG": log, **stops}
    return witness("cycle", job_file, folder, *link(target), *TRUSTED[:-1], seed, *SHORT, "--off", off, "--cycles", str(cycles), *words, env=env)


def blocks_in(log, most=None):
    """The blocks of a log's writes, or of so many that were told first."""
    return {int(line.split()[1]) for line in read(log).decode().splitlines()[:most]}


def covered_regions():
    """The blocks of six cycles, of each those of its first 300 writes, as if it were cut then: by orders that
    are drawn they are many times as many, and by one order the same, but for what was in flight. All that
    was found is asked for."""
    for name, words in (("drawn", ()), ("same", ("--same-order",))):
        model, seen = Model(), set()
        for number in range(1, 7):
            more = words if number == 1 else ()
            (status, _, _), rest, flight = cycle_of(model, number, None, SHORT, name, f"c{name}", *more)
            seen |= blocks_in(f"cycle{number}.log", 300)
            row = rows_of(name)[-1]
            tell(f"{name}, cycle {number}: no fault", (status, row["faults"], rest, flight), (0, 0, set(), set()))
            tell(f"{name}, cycle {number}: what was found is asked for", row["checked"], sum(1 for it in model.entries.values() if it))
        tell(f"{name}: six cycles of 300 writes, 8 of them in flight", (len(seen) >= 1300, len(seen) <= 308), (name == "drawn", name == "same"))


def resumed_orders():
    """A series that is resumed draws the same as one that wasn't stopped, wherever it was stopped; by
    another seed, and for another cycle, it draws others."""
    for name, seed in (("whole", "7"), ("other", "8")):
        tell(f"four cycles by {seed}", series("long.fio", name, "rw", 4, seed=seed)[0], 0)
    both = seeds_of("whole", 4) + seeds_of("other", 4)
    tell("eight orders", (len(set(both)), None in both), (8, False))
    parts = ("long.fio", "parts", "rp")
    tell("one cycle", series(*parts, 1)[0], 0)
    for stops in ("before/cycle-000002.state", "behind/cycle-000002.state", "before/ledger"):
        tell(f"stopped {stops}", series(*parts, 2, "--resume", LIE_STOPS=stops)[0], -signal.SIGKILL)
    status, printed, _ = series(*parts, 4, "--resume")
    tell("a resumed series: its cycles, and no fault", (status, len(cycles_in(printed)), [it["faults"] for it in rows_of("parts")]), (0, 3, [0] * 4))
    tell("a resumed series draws the same", seeds_of("parts", 4), seeds_of("whole", 4))
    status, _, said = series(*parts, 5, "--resume", "--same-order")
    tell("with --same-order it is refused", (status, "has drawn the orders" in said), (2, True))


def earlier_series():
    """A series whose folder doesn't say that orders are drawn, as of an earlier version, has one order; and
    goes on so."""
    tell("a cycle with --same-order", series("long.fio", "earlier", "es", 1, "--same-order")[0], 0)
    tell("its settings are those of earlier versions", read("earlier/settings"), b"seed 7\njob 0 offset 0 stride 4096\n" + read("long.fio"))
    status, _, _ = series("long.fio", "earlier", "es", 3, "--resume")
    texts = [text_in(state_of("earlier", it)) for it in (1, 2, 3)] if not status else []
    tell("it goes on with that order", (status, texts), (0, [read("long.fio")] * 3))


def checks_of_drawn():
    """A cycle's state is checked with the job file of its series: by drive-target and by a witness, also an
    older one over what the drive held then; what faulty blocks may hold is kept by the run's own order. With
    any other job file it is refused."""
    for number in (1, 2):
        tell(f"cycle {number}", series("long.fio", "cd", "ct", number, "--resume" if number > 1 else "--json", least=2000)[0], 0)
        shutil.copyfile("ct", f"ct{number}")
    for number in (1, 2):
        state, there = state_of("cd", number), ("--other-drive",)
        told = min(rows_of("cd")[number - 1]["told"], 4096)
        status, printed, _ = run("check", "long.fio", f"ct{number}", state, *there)
        checked = int(printed.split()[2]) if not status else 0 # (where a second pass began, less by what was in flight of the first)
        tell(f"a check of cycle {number}", (status, printed, told - 8 <= checked <= told), (0, report([], checked), True))
        tell(f"by a witness, cycle {number}", witness("check", "long.fio", state, *link(f"ct{number}"), *there)[:2], (0, printed))
        tell(f"a map of cycle {number}", witness("map", "long.fio", state, *link(f"ct{number}"), *there)[0], 0)
    harmed_cycles()
    other_job_files(state_of("cd", 2))


def harmed_cycles():
    """Faults of an older cycle, and what is kept of them."""
    data = bytearray(read("ct1"))
    held = [it for it in range(4096) if int.from_bytes(data[it * BLOCK : it * BLOCK + 8], "big") == run_of(state_of("cd", 1))][:2]
    for block in held:
        data[block * BLOCK + 900] ^= 1
    write("harmed", bytes(data))
    for what, by in (("drive-target", lambda *words: run("check", "long.fio", "harmed", *words, whole=True)), ("a witness", lambda *words: witness("check", "long.fio", *words, *link("harmed"), whole=True))):
        os.mkdir(f"by {what}")
        state = f"by {what}/st"
        write(state, read(state_of("cd", 1)))
        status, printed, _ = by(state, "--other-drive", "--dump", "2")
        tell(f"{what}: two faults", (status, "faults: 2 of " in printed), (1, True))
        tell_kept(what, state, printed, run_of(state), data, held)


def other_job_files(state):
    """Job files that aren't the series' own, and texts that aren't the job file behind a drawn seed."""
    own, seed = read("long.fio"), seeds_of("cd", 2)[1]
    others = {"another depth": own.replace(b"iodepth=8", b"iodepth=9"), "another section": own.replace(b"[a]", b"[b]"), "a line more": own + b"\n", "a seed of its own": own + b"randseed=5\n", "its whole text behind another seed": FRONT + b"5\n" + own}
    for what, text in others.items():
        write("others.fio", text)
        for by, came in (("drive-target", run("check", "others.fio", "ct", state)), ("a witness", witness("check", "others.fio", state, *link("ct")))):
            tell(f"{what}, {by}: refused", (came[:2], "another job file" in came[2]), ((2, ""), True))
    number = b"%d\n" % seed
    texts = {"another file": FRONT + number + others["another depth"], "an option more": FRONT + number + b"x_window=16\n" + own, "twice": FRONT + number + FRONT + number + own,
             "a zero in front": FRONT + b"0" + number + own, "no number": FRONT + b"\n" + own, "nothing behind": FRONT + number, "another word": FRONT.replace(b"global", b"global2") + number + own}
    for what, text in texts.items():
        write("made.state", with_text(state, text))
        came = run("check", "long.fio", "ct", "made.state")
        tell(f"a text with {what}: refused", (came[:2], "another job file" in came[2]), ((2, ""), True))
    write("made.state", with_text(state, FRONT + number + own))
    tell("and the text as it was isn't", run("check", "long.fio", "ct", "made.state")[0], 0)


def randseeds_of_their_own():
    """A job whose file says randseed has that order in all runs, which is said; of others, each by itself,
    it is drawn: of copies, too. One whose order isn't random has its own."""
    random = "rw=randwrite\nbs=4k\nsize=1m\nio_size=64m\n"
    for name, text, number, draws, says in (
        ("own", f"[a]\n{random}randseed=5\n", 0, False, True),
        ("global", f"[global]\nrandseed=5\n[a]\n{random}", 0, False, True),
        ("later", f"[a]\n{random}[global]\nrandseed=5\n", 0, True, False),
        ("comment", f"# randseed=5\n\n[a]\n{random};randseed=5", 0, True, False),
        ("first", f"[a]\n{random}[b]\n{random} randseed = 5 \n", 0, True, False),
        ("second", f"[a]\n{random}[b]\n{random} randseed = 5 \n", 1, False, True),
        ("first-own", f"[a]\n{random}randseed=5\n[b]\n{random}", 1, True, False),
        ("copies", f"[a]\n{random}numjobs=3\n", 2, True, False),
        ("norandommap", f"[a]\n{random}norandommap\n", 0, True, False),
        ("sequential", f"[a]\n{random.replace('rand', '')}", 0, False, False),
    ):
        write(f"{name}.fio", text)
        status, _, said = series(f"{name}.fio", name, "ro", 2, "--job", str(number))
        rows = rows_of(name)
        tell(f"{name}: two cycles", (status, [it["faults"] for it in rows], said.count(SAID)), (0, [0, 0], int(says)))
        texts, seeds = [text_in(state_of(name, it)) for it in (1, 2)], seeds_of(name, 2, f"{name}.fio")
        tell(f"{name}: whether orders are drawn", (len(set(texts)), None not in seeds, b"\norders drawn\n" in read(f"{name}/settings")), (2, True, True) if draws else (1, False, False))
        at = [jobs_in(it)[number] for it in texts]
        tell(f"{name}: the seeds of its runs", at, [(it + number) % 2**64 for it in seeds] if draws else [jobs_in(read(f"{name}.fio"))[number]] * 2)
        tell(f"{name}: a check of the last", run("check", f"{name}.fio", "ro", state_of(name, 2), "--job", str(number))[0], 0)
    long_files(random)


def long_files(random):
    """A job file that has no room for a seed is refused; with --same-order it isn't."""
    text = f"[a]\n{random}#"
    write("full.fio", text + "x" * (16384 - len(text)))
    for words, due in (((), (2, True)), (("--same-order",), (0, False))):
        status, _, said = series("full.fio", "full", "rf", 1, *words)
        tell(f"a job file without room {words}", (status, "--same-order goes without" in said), due)


def drawn_on_several():
    """An agent with a `drive` of its own has the order of the run, and each of several drives its own series
    of orders: no fault is told."""
    two = ("--link", link("d1")[1].replace("agent;", "agent1;"), "--link", link("d2")[1].replace("agent;", "agent2;"), "--off", f"{until_told('agent1')}; {until_told('agent2')}; kill -KILL $(cat agent1) $(cat agent2)", "--on", "true", "--trust-off")
    for name, words, folders in (("local", (*link("dl"), *TRUSTED, "--local"), ["."]), ("two", two, ["1", "2"]), ("two-local", (*two, "--local"), ["1", "2"])):
        for turn, every in enumerate((LONG, SHORT, SHORT)):
            more = ("--resume",) if turn else ()
            tell(f"{name}, cycle {turn + 1}", witness("cycle", "long.fio", name, *words, *every, "--cycles", str(turn + 1), *more)[0], 0)
        for it in folders:
            tell(f"{name}: no fault", [(row["faults"], row["at_rest"], row["checked"] > 0) for row in rows_of(f"{name}/{it}")], [(0, 0, True)] * 3)
            seeds = seeds_of(f"{name}/{it}", 3)
            tell(f"{name}: an order for each run", (len(set(seeds)), None in seeds), (3, False))
            tell(f"{name}: its ledger", taken(f"{name}/{it}/ledger"), (run_of(state_of(f"{name}/{it}", 3)), True))
    tell("two drives have orders of their own", set(seeds_of("two/1", 3)) & set(seeds_of("two/2", 3)), set())


def lost_drawn_runs():
    """A run that left no state is taken by the order that was drawn for it: it asks for nothing where that
    came, and for all that was there where it didn't. The order here leaves out a third of the blocks."""
    job("apart.fio", blocks=4096, writes=4096, more="norandommap\n")
    model, logs = Model(), [os.path.abspath(f"lost{it}.log") for it in (1, 2, 3)]
    words = ("cycle", "apart.fio", "lost", *link("lo"), *TRUSTED, "--every", "0.1..0.1", "--off")
    until = lambda log, least: f"until [ $(wc -l <{log}) -ge {least} ]; do sleep 0.02; done; {TRUSTED[1]}"
    lies = lambda log: {"LD_PRELOAD": LIAR, "LIE_TARGET": "/lo", "LIE_LOG": log}
    for log in logs:
        write(log, "")
    tell("a cycle", witness(*words, until(logs[0], 4096), "--cycles", "1", env=lies(logs[0]))[0], 0)
    model.take(state_of("lost", 1), logs[0])
    ran = subprocess.Popen([WITNESS, *words, "sleep 60", "--cycles", "2", "--resume"], env={**os.environ, **lies(logs[1])}, **QUIET)
    await_that(lambda: read(logs[1]).count(b"\n") >= 4096, "all writes")
    ran.kill()
    ran.wait()
    model.entries.update({it: [] for it in blocks_in(logs[1])})
    status, _, said = witness(*words, until(logs[2], 50), "--cycles", "2", "--resume", env=lies(logs[2]))
    rows = rows_of("lost")
    tell("a lost run: no false fault", (status, [it["faults"] for it in rows], "left no state: it is taken" in said), (0, [0, 0], True))
    model.take(state_of("lost", 2), logs[2])
    tell("what it left alone is asked for, and nothing else of what was there", rows[1]["checked"], sum(1 for it in model.entries.values() if it))
