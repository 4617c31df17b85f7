"""Tours of a drive: a region of tiles is written, cut and checked; what a drive loses is told, of which
tile, once; and a tour goes on where it was stopped."""
import json
import os
import random
import re
import shlex
import signal
import subprocess
import sys
import time

from nights import last_line, last_lines, rows_of
from tour_records import BEGUN, ENDED, counted, records, stamp_in, tiles_in
from trying import BLOCK, HANG, HERE, LIAR, QUIET, WITNESS, as_often, await_that, job, read, stamp, tell, tell_has, write
from witness import KILL, link, until_told, witness

TILE, TILES, LARGE = 64, 24, 4096
SPAN = TILE * BLOCK
HARM = f"{shlex.quote(sys.executable)} -B {shlex.quote(f'{HERE}/tour_records.py')}"


def cut_behind(tour, ends, then=""):
    """A command that cuts once so many more tiles have come to an end, or none does any more."""
    size = f"$(wc -c <{tour}/tiles)"
    return f"n={size}; i=0; until [ {size} -ge $((n + {ends} * 208)) ] || [ $((i += 1)) -gt 300 ]; do sleep 0.01; done; {KILL}{then}"


def all_ended(tour, ends):
    """A command that waits until so many runs of tiles have come to an end since their tour
    began."""
    return f"until [ $(wc -c <{tour}/tiles) -ge $((8 + {ends} * 208)) ]; do sleep 0.02; done"


def behind_two(tour, log, command):
    """Has a command run in the third cut, once."""
    return f"; [ -s {log} ] || [ $(cat {tour}/cycles.jsonl 2>/dev/null | wc -l) -lt 2 ] || {command} >{log}"


def slowly(target):
    """A target of which each tile takes half a second at least: so that there are many cuts."""
    return {"LD_PRELOAD": LIAR, "LIE": "slow:40", "LIE_TARGET": f"/{target}"}


def words_of(tour, target, *words, ends=3, then="", options=(), cover=TILES * SPAN):
    """The words of a tour that leaves no tile: on a busy machine any may be cut short again and again."""
    off = cut_behind(tour, ends, then)
    return ("tour", "tile.fio", tour, *link(target, *options), "--off", off, "--on", "true", "--every", "0..0", "--trust-off", "--cover", str(cover), "--seed", "7", "--tries", "99", *words)


def tour_of(tour, target, *words, env=None, **more):
    job("tile.fio", blocks=TILE, depth=4, more="x_window=16\n")
    return witness(*words_of(tour, target, *words, **more), env=env or {})


def covered_line(tour, blocks=TILES * TILE, word="sound", losses="0 lost in flight, 0 lost at rest, 0 misdirected", all_bytes=TILES * SPAN):
    """The last line that is due, by the cycles' lines."""
    rows = rows_of(tour)
    flying = [it["in_flight"] for it in rows if it["in_flight"] and it["cut"] != "none"]
    mega = lambda count: f"{count // 1000000}.{count % 1000000 // 100000}"
    cuts = sum(it["cut"] != "none" for it in rows)
    return f"{word}: covered {mega(blocks * BLOCK)} of {mega(all_bytes)} MB, {cuts} cuts by the word of --off, {len(flying)} with writes in flight ({sum(flying):,} in all): {losses}"


def tours():
    """A tour over an honest drive: each block of it is written, by its tile's run, and checked behind the
    last cut; and its numbers are those of its records."""
    status, printed, said = tour_of("tour", "tt", env=slowly("tt"))
    tell("a tour", (status, last_lines(printed)), (0, [covered_line("tour")]))
    rows, tiles, data = rows_of("tour"), tiles_in("tour/tiles"), read("tt")
    tell("some tiles were cut within their runs", (len(rows) > 3, sum(it["cut_short"] for it in rows) > 3), (True, True))
    tell("each tile has a state, and was checked behind the last cut", [(it["state"] is not None, it["checked"]) for it in tiles.values()], [(True, len(rows))] * TILES)
    whole = sum(len(counted(state)[1]) == TILE for it in tiles.values() for state in it["states"].values())
    tell("each has a run that was whole", (whole, sum(it["whole"] for it in rows)), (TILES, TILES))
    wrong = []
    for at, its in tiles.items():
        for block in range(TILE):
            held = data[(at * TILE + block) * BLOCK :][:BLOCK]
            run_number, number, _ = stamp_in(held) or (0, 0, 0)
            if run_number != its["runs"][-1] or held != stamp(run_number, 0, number, block):
                wrong.append((at, block))
    tell("each block holds a write of its tile's last run", wrong, [])
    told = sum(len(counted(state)[1]) for it in tiles.values() for state in it["states"].values())
    ordered = sum(counted(state)[0] for it in tiles.values() for state in it["states"].values())
    tell("what was told and ordered", (sum(it["told"] for it in rows), sum(it["ordered"] for it in rows)), (told, ordered))
    tell("at most four at once", max(open_at_once("tour/tiles")), 4)
    tell("it says how far it is", [f"{done} of {TILES} tiles, {done * 100 // TILES} %" in line for done, line in zip(done_by_cycle(rows), [it for it in printed.splitlines() if it.startswith("cycle ")])], [True] * len(rows))
    tell_has("and what it writes", said, f"{TILES} tiles of {TILE} blocks of {BLOCK} bytes, 4 at once")
    tell("no ledger is kept of a tile that was whole", [it for it in os.listdir("tour") if it.endswith(".ledger")], [])
    status, printed, _ = tour_of("tour", "tt", "--resume")
    tell("a tour that is over has nothing to do", (status, printed.splitlines()), (0, [covered_line("tour")]))
    status, printed, _ = tour_of("wide", "tw", "--tiles", "1", "--again", "3", "--stride", str(2 * BLOCK), cover=2 * TILES * SPAN)
    tell("one at a time, and every second block", (status, last_lines(printed)), (0, [covered_line("wide", all_bytes=2 * TILES * SPAN)]))
    tell("older ones are checked again", sum(it["tiles"] for it in rows_of("wide")) > sum(it["whole"] + it["cut_short"] for it in rows_of("wide")), True)
    tell("one at once", max(open_at_once("wide/tiles")), 1)


def open_at_once(path):
    """How many tiles are open behind each record."""
    count, counts = 0, [0]
    for kind, *_ in records(read(path))[0]:
        count += (kind == BEGUN) - (kind == ENDED)
        counts.append(count)
    return counts


def done_by_cycle(rows):
    done = 0
    for it in rows:
        done += it["whole"]
        yield done


def harmed(path):
    return [json.loads(it) for it in read(path).decode().splitlines()] if os.path.exists(path) else []


def tours_of_drives_that_forget():
    """What a cut takes away is told, as what it is, and once: of the tiles that were checked before, of
    those that were written since, and of one whose block holds another tile's."""
    for kind, count in (("rest", 20), ("flight", 3), ("astray", 1)):
        tour, target, log = f"{kind}-tour", f"{kind}-t", f"{kind}.log"
        then = behind_two(tour, log, f"{HARM} {target} {tour} {TILE} {BLOCK} {kind} {count}")
        status, printed, _ = tour_of(tour, target, "--keep-going", "--again", "2", then=then, env=slowly(target))
        lost = lost_by(tour, harmed(log))
        names = {"rest": "at_rest", "flight": "in_flight", "astray": "misdirected"}
        sums = {it: 0 for it in names.values()} | {names[kind]: len(lost)}
        losses = f"{sums['in_flight']} lost in flight, {sums['at_rest']} lost at rest, {sums['misdirected']} misdirected"
        tell(f"{kind}: some were taken", len(lost) > 0, True)
        tell(f"{kind}: the status, and the sums", (status, last_line(printed).split(": ", 2)[::2]), (1, ["faults", losses]))
        tell(f"{kind}: which blocks, each once", sorted(told_in(tour)), sorted(lost))
        tell(f"{kind}: what is covered", last_line(printed).split(",")[0], "faults: covered 6.2 of 6.2 MB")
        if kind == "astray":
            its = harmed(log)[0]
            line = next(it for it in lines_in(tour) if it.startswith(f"tile {its['tile']}: "))
            tell("the line names the other tile", line.endswith(f" (tile {its['from']})"), True)
    status, printed, _ = tour_of("stops", "st", then=f"; {HARM} st stops {TILE} {BLOCK} flight 1")
    tell("without --keep-going it stops behind the first", (status, len(rows_of("stops")), last_line(printed).split(":")[0]), (1, 1, "faults"))
    tell("and has kept the bytes of faulty blocks", any(".block-" in it for it in os.listdir("stops")), True)
    row = rows_of("stops")[0]
    write("stops/cycles.jsonl", "")
    tour_of("stops", "st", "--resume", "--keep-going")
    what = ("cut", "told", "faults", "lost_in_flight")
    tell("a cycle that was stopped before its line was kept is checked again", [rows_of("stops")[0][it] for it in what], [row[it] for it in what])


def lost_by(tour, harms):
    """Of the blocks that were taken away, those that had to hold something: their writes were told as done."""
    tiles, lost = tiles_in(f"{tour}/tiles"), []
    for it in harms:
        its = tiles[it["tile"]]
        if it["kind"] == "astray" or it["write"] in counted(its["states"][it["run"]])[1]:
            lost.append((it["tile"], it["block"]))
    return lost


def lines_in(tour):
    names = [it for it in sorted(os.listdir(tour)) if re.fullmatch(r"cycle-\d+\.(report|last)", it)]
    return [line for name in names for line in read(f"{tour}/{name}").decode().splitlines()]


def told_in(tour):
    return [tuple(map(int, re.match(r"tile (\d+): block (\d+) ", it).groups())) for it in lines_in(tour)]


def cut_short(tour, target, tiles, *words, then="", env=None):
    """A tour of large tiles, whose runs are cut before they are whole."""
    job("tile.fio", blocks=LARGE, depth=4, more="x_window=16\n")
    words = [*words_of(tour, target, "--tiles", "2", *words, cover=tiles * LARGE * BLOCK, then=then), "--every", "0.1..0.15"]
    words[words.index("--off") + 1] = f"{until_told()}; {KILL}{then}"
    return witness(*words, env={**slowly(target), **(env or {})})


def tours_refused():
    """A tour goes on by its own folder alone, with the same tiles, and by bytes that are as they were kept."""
    tell("a tour", tour_of("own", "to")[0], 0)
    before = read("own/tiles")
    for what, words, part in (
        ("another size", {"cover": 2 * TILES * SPAN}, None),
        ("another stride", {"words": ("--stride", "8192")}, "another job or region"),
        ("another unit", {"words": ("--unit", "512")}, "another job or region"),
    ):
        status, printed, said = tour_of("own", "to", "--resume", *words.get("words", ()), cover=words.get("cover", TILES * SPAN))
        tell(f"resumed with {what}", (status, (part or "") in said, read("own/tiles") == before), (2 if part else 0, True, True))
    tell_has("a tour over a tour", tour_of("own", "to")[2], "is there already")
    tell_has("one of a series", witness("tour", "tile.fio", "night", *link("to"), "--off", "true", "--on", "true", "--resume")[2], "night")
    wrong = 0
    for at in range(0, len(before), len(before) // 24):
        write("own/tiles", before[:at] + bytes([before[at] ^ 1]) + before[at + 1 :])
        wrong += tour_of("own", "to", "--resume", "--wait", "1")[0] != 2
    tell("a flipped bit in the tiles' file", wrong, 0)
    write("own/tiles", before + before[8:30])
    tell("a record that was cut short is taken away", (tour_of("own", "to", "--resume")[0], read("own/tiles")), (0, before))
    tell_has("a region that is larger than what is to be covered", tour_of("small", "ts", cover=SPAN - 1)[2], "a region of this job is larger")
    tell_has("too many at once", tour_of("many", "tm", "--tiles", "65")[2], "at most 64")
    for word in ("0", "4x", "t", "9999999t", "-1"):
        tell_has(f"--cover {word}", tour_of("word", "tm", cover=word)[2], "--cover: this wants a number of bytes")
    write("old-drive", f"#!/bin/sh\n[ \"$1\" = tour ] && {{ echo bad command; exit 2; }}\nexec {shlex.quote(os.environ['DRIVE'])} \"$@\"\n")
    os.chmod("old-drive", 0o755)
    status, _, said = tour_of("old", "td", env={"DRIVE": os.path.abspath("old-drive")})
    tell("a drive that makes no tours", (status, "makes no tours" in said, os.path.exists("old"), os.path.exists("td")), (2, True, False, False))


def tours_by_units():
    """Blocks that the target doesn't write whole: one that is torn by its units is no fault; one that is lost
    is told once, though no ledger is kept."""
    words = ("--unit", "512", "--keep-going", "--again", "4")
    status, printed, _ = tour_of("units", "tu", *words)
    tell("by units", (status, last_lines(printed)), (0, [covered_line("units")]))
    log = "unit.log"
    then = behind_two("lost", log, f"{HARM} tl lost {TILE} {BLOCK} rest 1")
    status, printed, _ = tour_of("lost", "tl", *words, then=then, env=slowly("tl"))
    tell("lost blocks, each told once", (status, sorted(told_in("lost"))), (1, sorted(lost_by("lost", harmed(log)))))


def tours_that_fail():
    """A write that fails is the end of a tour, whose tiles are checked; a tour in which nothing shows a cut has
    no verdict; and a tile whose runs are cut too often is left."""
    env = {"LD_PRELOAD": LIAR, "LIE": "failed:100", "LIE_TARGET": "/tf"}
    status, printed, said = tour_of("failed", "tf", "--every", "60..60", env=env)
    tell("a write that fails", (status, "failed at the agent" in said, last_line(printed).split(":")[0]), (2, True, "not checked whole"))
    words = [*words_of("ends", "te", cover=2 * SPAN)]
    words.remove("--trust-off")
    ran = subprocess.run([WITNESS, *words], capture_output=True, text=True, timeout=HANG)
    tell("cuts that nothing shows", ({it["cut"] for it in rows_of("ends")}, ran.returncode, last_line(ran.stdout).split(",")[0]), ({"none"}, 3, "no verdict: covered 0 bytes of 524.2 kB"))
    tell("the last line says how many tiles that is of", last_line(ran.stdout).rpartition("; ")[2], "2 tiles behind no cut")
    tell("after a cycle that had nothing else to show", [it["ordered"] for it in rows_of("ends")][-1], 0)
    status, printed, _ = cut_short("left", "tv", 4, "--tries", "2")
    tiles = tiles_in("left/tiles")
    tell("a tile is left behind two cuts", max(len(it["runs"]) for it in tiles.values()), 2)
    asked = sum(it["asked"] for it in tiles.values())
    tell("what is covered then", (status, last_lines(printed)), (0, [covered_line("left", blocks=asked, all_bytes=4 * LARGE * BLOCK)]))
