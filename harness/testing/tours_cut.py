"""Tours that are cut, stopped and killed at any moment: what their tiles have to hold, and what a tour that goes
on comes to."""
import os
import random
import re
import signal
import subprocess
import time

from nights import last_line, last_lines, rows_of
from tour_records import BEGUN, records, tiles_in
from tours import HARM, LARGE, SPAN, TILE, TILES, all_ended, covered_line, cut_short, harmed, lines_in, lost_by, slowly, told_in, tour_of, words_of
from trying import BLOCK, HANG, LIAR, QUIET, WITNESS, as_often, await_that, job, read, tell, write
from witness import KILL, until_told, witness


def older_writes():
    """What a run of a tile had written that was cut, and a check has found, has to stay until the next run
    has written there: also where that is cut before."""
    then = f"; {HARM} ow older {LARGE} {BLOCK} older 5 >>older.log"
    status, printed, _ = cut_short("older", "ow", 2, "--keep-going", "--tries", "5", then=then)
    lost = lost_by("older", harmed("older.log"))
    tell("a tile's older blocks are taken away", (status, len(lost) > 0), (1, True))
    tell("just these are told, and once", sorted(told_in("older")), sorted(lost))
    tell("as lost at rest", last_line(printed).split(": ")[2:], [f"0 lost in flight, {len(lost)} lost at rest, 0 misdirected"])


def older_writes_of_few():
    """A run that is whole by a few writes leaves most of its tile to what an earlier one had written, which has
    to stay, too."""
    job("tile.fio", blocks=LARGE, writes=400, depth=4, more="x_window=16\n")
    words = [*words_of("few", "fw", "--tiles", "2", "--tries", "9", "--keep-going", cover=24 * LARGE * BLOCK)]
    words[words.index("--off") + 1] = f"{until_told()}; {KILL}"
    with subprocess.Popen([WITNESS, *words, "--every", "0.8..0.8"], env={**os.environ, **slowly("fw")}, **QUIET) as ran:
        await_that(lambda: rows_of("few"), "a cycle")
        ran.terminate()
    words[words.index("--off") + 1] += f"; [ -s few.log ] || [ $(cat few/cycles.jsonl | wc -l) -lt 2 ] || {HARM} fw few {LARGE} {BLOCK} older-rest 9 >few.log"
    status, printed, _ = witness(*words, "--resume", "--every", "0.2..0.3")
    lost = lost_by("few", harmed("few.log"))
    tell("blocks that an earlier run had written are taken away", (status, len(lost) > 0), (1, True))
    tell("just these are told, and once", sorted(told_in("few")), sorted(lost))


def lost_tiles():
    """A run of a tile that left no state, as the witness was killed, may have written over what earlier ones
    wrote: that is asked for no more."""
    job("tile.fio", blocks=4 * LARGE, depth=4, more="x_window=16\n")
    words = [*words_of("lt", "tk", "--tiles", "2", "--tries", "99", cover=8 * LARGE * BLOCK)]
    words[words.index("--off") + 1] = f"{until_told()}; {KILL}"
    with subprocess.Popen([WITNESS, *words, "--every", "0.15..0.15"], **QUIET) as ran:
        await_that(lambda: rows_of("lt"), "a cycle")
        ran.kill()
    with subprocess.Popen([WITNESS, *words, "--every", "60..60", "--resume"], **QUIET) as ran:
        before = len(begun_in("lt"))
        await_that(lambda: len(begun_in("lt")) >= before + 2, "a tile that is begun again")
        time.sleep(0.5) # (longer than the next run, which has the order of this one)
        ran.kill()
    status, printed, _ = witness(*words, "--every", "0.1..0.1", "--resume", "--tries", "2")
    tiles = tiles_in("lt/tiles")
    tell("tiles that were begun and left no state", sum("lost" in it for it in tiles.values()), 2)
    tell("nothing is blamed on the drive", (status, lines_in("lt"), last_line(printed).split(":")[0]), (0, [], "sound"))


def told_before_forgotten():
    """What a check has found is noted before it is asked for no more: a witness that is killed between the two
    may tell a loss twice, and never not at all."""
    for name, stops in (("behind", "behind/tile-000000.ledger"), ("before", "before/tile-000000.ledger")):
        target, log = f"{name}-k", f"{name}.log"
        then = f"; [ -e {log} ] || {HARM} {target} {name} {LARGE} {BLOCK} flight 3 >{log}"
        env = {"LD_PRELOAD": LIAR, "LIE_STOPS": stops}
        status, _, _ = cut_short(name, target, 2, "--keep-going", "--tries", "1", then=then, env=env)
        tell(f"{stops}: the witness was killed within its check", (status, rows_of(name)), (-signal.SIGKILL, []))
        status, printed, _ = cut_short(name, target, 2, "--keep-going", "--tries", "1", "--resume", then=then)
        lost = lost_by(name, harmed(log))
        tell(f"{stops}: the status, and which blocks", (status, {*told_in(name)} == {*lost}, len(lost) > 2), (1, True, True))
        found = sum(map(int, re.findall(r": (\d+) lost in flight", last_line(printed))))
        tell(f"{stops}: each is counted, once or twice", len(lost) <= found <= 2 * len(lost), True)


def tiles_behind_no_cut():
    """What was whole before the first cut was shown is no part of what is covered, until a cut came behind it:
    there has to be one more."""
    words = [*words_of("late", "tc", cover=2 * SPAN), "--every", "0.1..0.1"]
    job("tile.fio", blocks=TILE, depth=4, more="x_window=16\n")
    words[words.index("--off") + 1] = f"{all_ended('late', 2)}; [ -e again ] || {{ touch again; kill -KILL $PPID; }}; {KILL}"
    status, _, _ = witness(*words)
    tell("a tour whose witness is killed within the first cut", (status, rows_of("late")), (-signal.SIGKILL, []))
    status, printed, _ = witness(*words, "--resume")
    rows, tiles = rows_of("late"), tiles_in("late/tiles").values()
    tell("is resumed: a cycle without a cut, and one that has nothing to write", [(it["cut"], it["ordered"] > 0) for it in rows], [("none", False), ("word", False)])
    tell("each tile was checked behind both", [[it[0] for it in its["checks"]] for its in tiles], [[1, 2]] * 2)
    tell("what it has covered", (status, last_lines(printed)), (0, [covered_line("late", blocks=2 * TILE, all_bytes=2 * SPAN).replace("0.5 of 0.5 MB", "524.2 of 524.2 kB")]))


def begun_in(tour):
    return [it for it in records(read(f"{tour}/tiles"))[0] if it[0] == BEGUN] if os.path.exists(f"{tour}/tiles") else []


def tours_stopped_once():
    """A tour that is stopped has no verdict yet, and says how much it has covered; and one of all of a target
    has as many tiles as lie in it."""
    job("tile.fio", blocks=LARGE, depth=4, more="x_window=16\n")
    words = [*words_of("once", "tn", cover=2 * LARGE * BLOCK), "--every", "60..60"]
    with subprocess.Popen([WITNESS, *words], stdout=subprocess.PIPE, stderr=subprocess.DEVNULL, text=True) as ran:
        await_that(lambda: begun_in("once"), "a tile")
        time.sleep(0.2)
        ran.send_signal(signal.SIGTERM)
        printed, _ = ran.communicate()
    tell("a tour that is stopped", (ran.returncode, printed.startswith("stopped: covered 0 bytes of 33.5 MB, 0 cuts, ")), (3, True))
    size = TILES * SPAN + 5000
    write("ta", b"")
    os.truncate("ta", size)
    status, printed, _ = tour_of("all", "ta", cover="all")
    tell("all of a target", (status, last_lines(printed)), (0, [covered_line("all", all_bytes=size)]))


def tours_of_a_drive_alone():
    """Where the drive alone loses its power, a write that fails shows it: one is out also where all was written
    before. It is made again and again, and nothing is said of it."""
    job("tile.fio", blocks=TILE, depth=4, more="x_window=16\n")
    fell = os.path.abspath("alone-fell")
    env = {"LD_PRELOAD": LIAR, "LIE": "fallen:1", "LIE_TARGET": "/ta", "LIE_UNTIL": fell}
    words = [*words_of("alone", "ta", cover=4 * SPAN), "--off", f"{all_ended('alone', 4)}; touch {fell}", "--on", f"rm -f {fell}", "--every", "0.1..0.2", "--drive-only"]
    words.remove("--trust-off")
    status, printed, said = witness(*words, env=env)
    rows = rows_of("alone")
    tell("a tour whose drive alone is cut", (status, {it["cut"] for it in rows}), (0, {"fall"}))
    tell("all of it was written before the cut, and is covered", ([it["in_flight"] for it in rows], last_line(printed).split(",")[0]), ([0], "sound: covered 1.0 of 1.0 MB"))
    tell("what was told and ordered", [(it["told"], it["ordered"], it["failed"]) for it in rows], [(4 * TILE, 4 * TILE, 0)])


def tours_stopped():
    """The witness is killed, or stopped, at any moment, again and again: a tour that goes on comes to its
    end, and blames no honest drive."""
    chance = random.Random(5)
    job("tile.fio", blocks=TILE, depth=4, more="x_window=16\n")
    for name, how in (("killed", signal.SIGKILL), ("stopped", signal.SIGTERM)):
        stops, status, printed = 0, None, ""
        for turn in range(60 * as_often["killed"]):
            more = ["--resume"] if os.path.exists(f"{name}/settings") else []
            with subprocess.Popen([WITNESS, *words_of(name, f"{name}-t", *more, "--wait", "20", ends=2)], stdout=subprocess.PIPE, stderr=subprocess.DEVNULL, text=True) as ran:
                try:
                    printed, _ = ran.communicate(timeout=chance.uniform(0.02, 0.3) if turn < 20 * as_often["killed"] else HANG)
                except subprocess.TimeoutExpired:
                    ran.send_signal(how)
                    printed, _ = ran.communicate()
                    stops += 1
            status = ran.returncode
            if status == 0 or status == 1:
                break
        tell(f"a tour that was {name}: it was so more than once, and is sound", (stops > 1, status, last_line(printed).split(",")[0]), (True, 0, covered_line(name).split(",")[0]))
        tell(f"{name}: nothing was told of a block", lines_in(name), [])
        tiles = tiles_in(f"{name}/tiles").values()
        tell(f"{name}: each tile was checked behind the last cut", ({it["checked"] for it in tiles}, {it["cut"] for it in tiles}), ({len(rows_of(name))}, {1}))
