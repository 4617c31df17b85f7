"""What is kept of faulty blocks: their bytes, and those of the writes that they may hold."""
import os
import re

from nights import written
from trying import BLOCK, read, run, run_of, stamp, tell
from witness import ALL_OF_TWO, KILL, link, until_told, witness


def wanted_of(lines, block):
    """The writes that a block may hold, as its line says."""
    found = re.search(rf"^block {block} [a-z-]+: wants write ([0-9]+(?: or [0-9]+)*)", lines, re.M)
    return [int(it) for it in found[1].split(" or ")] if found else []


def tell_kept(what, place, lines, run_number, data, blocks):
    """What is kept of these faulty blocks: their bytes, and those of the writes that they may hold, by the
    manual's layout."""
    due = {f"block-{it}": data[it * BLOCK : (it + 1) * BLOCK] for it in blocks}
    due.update({f"block-{it}.write-{of}": stamp(run_number, 0, of, it) for it in blocks for of in wanted_of(lines, it)})
    folder, front = os.path.split(place)
    kept = {it.removeprefix(f"{front}."): read(f"{folder or '.'}/{it}") for it in os.listdir(folder or ".") if it.startswith(f"{front}.block-")}
    tell(f"{what}: faulty blocks, and what they may hold", sorted(kept), sorted(due))
    tell(f"{what}: their bytes", [it for it in due if kept.get(it) != due[it]], [])
    tell(f"{what}: each may hold a write", all(wanted_of(lines, it) for it in blocks), True)


def kept_blocks():
    """The bytes of the first faulty blocks are kept, with those of the writes that they may hold: of a cycle
    before the next one writes over them, and of a check where that is asked for."""
    harm = f"{until_told(calls=ALL_OF_TWO)}; {KILL}; for b in 3 7 9; do printf abc | dd of=kb bs=1 seek=$((b * 4096 + 8)) conv=notrunc 2>/dev/null; done; cp kb as-it-was"
    status, _, _ = witness("cycle", "two.fio", "blocks", *link("kb", "--by", "threads"), "--off", harm, "--on", "true", "--every", "0.1..0.1", "--cycles", "1", "--trust-off")
    state = "blocks/cycle-000001.state"
    tell("a cycle with faults", status, 1)
    tell_kept("a cycle", state.removesuffix(".state"), read("blocks/cycle-000001.report").decode(), run_of(state), read("as-it-was"), (3, 7, 9))
    for what, ran in (("a check", lambda it: run("check", "two.fio", "kb", it, "--dump", "2", whole=True)), ("a witness's check", lambda it: witness("check", "two.fio", it, *link("kb"), "--dump", "2", whole=True))):
        place = written(what.replace(" ", "-"), read(state))
        status, printed, _ = ran(place)
        tell(f"{what}: the status", status, 1)
        tell_kept(what, place, printed, run_of(state), read("as-it-was"), (3, 7))
    tell("without the option nothing is kept", (run("check", "two.fio", "kb", written("none", read(state)))[0], [it for it in os.listdir(".") if it.startswith("none.")]), (1, []))
    tell("of a full pass", run("check", "two.fio", "kb", "-", "--run", "5", "--dump", "2")[0], 2)
