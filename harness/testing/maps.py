"""What a map tells of each faulty block: bytes by the manual's layout, and the lines that are due."""
import json
import os
import pty
import re
import subprocess

from trying import BLOCK, HANG, LIAR, TARGET, job, put, read, report, run, run_of, stamp, state_in, tell, tell_has, write
from witness import KILL_TOLD, counted, link, witness


def mapped(faults, checked, kinds, unchecked=""):
    """What `map` prints of these faulty blocks, each with its line, and what was checked."""
    lines = "".join(f"block {block} {line}\n" for block, line in sorted(faults.items()))
    blamed = [block for block, line in faults.items() if not line.startswith("unread")]
    return f"{lines}unchecked{unchecked}\n{report(blamed, checked)[:-1]}{kinds and ' '}{kinds}\n"


def written(log):
    """The writes to each block, in their order, by the log of the target."""
    of_block = {}
    for _, block, number in (line.split() for line in log.decode().splitlines()):
        of_block.setdefault(int(block), []).append(int(number))
    return of_block


def pieces(*rows):
    """What is told of the sectors of a block: from which to which, and whose they are."""
    return "".join(f"; {front}-{back} " + (f"{whose} place {back}" if whose else "unknown") for front, back, whose in rows)


def few(wanted, held, number):
    """How bytes are told to differ from those of a write, where that is in a few."""
    places = [at for at, byte in enumerate(wanted) if held[at] != byte]
    if len(places) > 16:
        return ""
    bits = sum(bin(wanted[at] ^ held[at]).count("1") for at in places)
    return f", differs from write {number} by bits {bits} first at sector {places[0] // 512} byte {places[0] % 512}"


def harm(data, run_number, of_block, server=0, job_number=0):
    """Harms a block by each kind there is, and returns the lines that are due."""
    last = {block: max(numbers) for block, numbers in of_block.items()}
    first = {block: min(numbers) for block, numbers in of_block.items()}
    half, newest = BLOCK // 2, max(last.values())
    unissued = 4 if last[4] < newest else 7

    def wrote(number, block, run_of_it=run_number):
        return stamp(run_of_it, job_number, number, block, server=server)

    def said(number, block, run_of_it=run_number):
        return f"write {number} of block {block} of job {job_number} of server {server} of run {run_of_it}"

    put(data, 0, bytes(BLOCK))
    put(data, 2, b"\xff" * BLOCK)
    put(data, 3, wrote(first[3], 3))
    put(data, unissued, wrote(newest, unissued))
    put(data, 5, wrote(last[5], 5, run_number + 1))
    put(data, 6, wrote(last[7], 7))
    put(data, 8, wrote(last[8], 8)[:half] + wrote(first[8], 8)[half:])
    data[9 * BLOCK + 1000] ^= 1
    put(data, 63, wrote(first[63], 63))
    held = {
        0: ("unwritten", ""),
        2: ("filled", ", holds byte 255"),
        3: ("lost", f", holds write {first[3]}"),
        unissued: ("unissued", f", holds write {newest}"),
        5: ("other-run", f", holds {said(last[5], 5, run_number + 1)}" + few(wrote(last[5], 5), wrote(last[5], 5, run_number + 1), last[5])),
        6: ("misdirected", f", holds {said(last[7], 7)}"),
        8: ("torn", pieces((0, 3, said(last[8], 8)), (4, 7, said(first[8], 8)))),
        9: ("corrupt", f", unknown sectors 1, differs from write {last[9]} by bits 1 first at sector 1 byte 488" + pieces((0, 0, said(last[9], 9)), (1, 1, None), (2, 7, said(last[9], 9)))),
        63: ("lost", f", holds write {first[63]}"),
    }
    return {block: f"{kind}: wants write {last[block]}{what}" for block, (kind, what) in held.items()}


KINDS = "unwritten 1 filled 1 lost 2 unissued 1 other-run 1 misdirected 1 torn 1 corrupt 1"


def maps():
    """Each kind at its block, by drive-target and by a witness; and a block that can't be read."""
    env = {"LD_PRELOAD": LIAR, "LIE_LOG": "map-log", "LIE_TARGET": "/mapped"}
    tell("a run to be mapped", run("write", "two.fio", "mapped", "ms", env=env)[0], 0)
    tell("a map of what is sound", run("map", "two.fio", "mapped", "ms")[:2], (0, mapped({}, 64, "")))
    data, of_block = bytearray(read("mapped")), written(read("map-log"))
    due = harm(data, run_of("ms"), of_block)
    write("mapped", bytes(data))
    tell("a map", run("map", "two.fio", "mapped", "ms")[:2], (1, mapped(due, 64, KINDS)))
    tell("a map by a witness", witness("map", "two.fio", "ms", *link("mapped"))[:2], (1, mapped(due, 64, KINDS)))
    env = {"LD_PRELOAD": LIAR, "LIE_UNREADABLE": str(10 * BLOCK + 7), "LIE_TARGET": "/mapped"}
    due[10] = f"unread: wants write {max(of_block[10])}"
    for what, (status, printed, said) in (
        ("drive-target", run("map", "two.fio", "mapped", "ms", env=env)),
        ("a witness", witness("map", "two.fio", "ms", *link("mapped"), env=env)),
    ):
        tell(f"an unreadable block costs no other, by {what}", (status, printed), (1, mapped(due, 63, f"{KINDS} unread 1")))
        tell_has(f"and why, by {what}", said, "block 10 can't be read: Input/output error")
    write("killed", '#!/bin/sh\ncase $1 in wanted*) exec "$REAL" "$@" ;; esac\nkill -KILL $$\n')
    os.chmod("killed", 0o755)
    status, printed, said = run("map", "two.fio", "mapped", "ms", env={"DRIVE": os.path.abspath("killed"), "REAL": os.environ["DRIVE"]})
    tell("a map whose drive is killed", (status, printed, "it was killed" in said), (2, "", True))
    pictures(due)
    unchecked()
    units()


def pictures(due):
    """On a terminal a picture of the region stands before the lines."""
    ours, theirs = pty.openpty()
    ran = subprocess.Popen([TARGET, "map", "two.fio", "mapped", "ms"], stdout=theirs, stderr=subprocess.DEVNULL)
    ran.wait(HANG)
    os.close(theirs)
    shown = os.read(ours, 65536).decode().replace("\r", "")
    os.close(ours)
    letters = {"unwritten": "0", "filled": "F", "lost": "L", "unissued": "U", "other-run": "R", "misdirected": "M", "torn": "T", "corrupt": "C"}
    row = "".join(letters.get(due[at].split(":")[0], ".") if at in due else "." for at in range(64))
    tell("the picture", shown.splitlines()[0], f"      0 {row}")
    tell_has("what its letters stand for", shown, "        . sound  0 unwritten  F filled  L lost")


def unchecked():
    """Blocks that no write has completed to are told as unchecked; and the kinds of a cycle."""
    env = {"LD_PRELOAD": LIAR, "LIE_LOG": "few-log", "LIE_TARGET": "/few"}
    tell("a few writes", run("write", job("few.fio", writes=64), "few", "fs2", "--after", "20", env=env)[0], 0)
    _, done = counted(state_in("fs2"))
    checked = {block for block, numbers in written(read("few-log")).items() if set(numbers) & done}
    extents = ""
    for block in range(64):
        if block not in checked:
            extents += f" {block}" if block == 0 or block - 1 in checked else ""
            extents += f"-{block}" if block == 63 or block + 1 in checked else ""
    tell("blocks that aren't checked", run("map", "few.fio", "few", "fs2")[:2], (0, mapped({}, len(checked), "", extents)))
    tell("by a check, too", run("check", "few.fio", "few", "fs2", whole=True)[1].splitlines()[0], f"unchecked{extents}")
    tell("a few writes to many blocks", run("write", job("many.fio", blocks=4096, writes=4096), "many", "ms2", "--after", "2000")[0], 0)
    listed, told = run("map", "many.fio", "many", "ms2")[1].splitlines(), run("check", "many.fio", "many", "ms2", whole=True)[1].splitlines()
    count = 4096 - int(re.match(r"report checked (\d+) ", told[1])[1])
    tell("many of them are told by a number, and listed by a map", (told[0], len(listed[0]) > 200), (f"unchecked {count} blocks, which a map tells", True))
    env = {"LD_PRELOAD": LIAR, "LIE": "lost:3", "LIE_TARGET": "/cm"}
    off = ("--off", KILL_TOLD, "--on", "true", "--every", "0.2..0.3", "--seed", "5", "--trust-off")
    _, printed, _ = witness("cycle", "long.fio", "kinds", *link("cm"), *off, "--cycles", "1", "--json", env=env)
    row = json.loads(printed)
    tell("a cycle tells the kinds of its faults", (sum(row["kinds"].values()), row["kinds"].get("unwritten", 0) > 0), (row["faults"], True))
    tell_has("and keeps their lines", read("kinds/cycle-000001.report").decode(), " unwritten: wants write ")


def units():
    """A write in flight that is torn is no fault by its units, and one by larger ones; and units that don't fit."""
    env = {"LD_PRELOAD": LIAR, "LIE_TARGET": "/units"}
    words = ("write", job("unit.fio", blocks=8, writes=64, order="write", block_size=2 * BLOCK), "units", "us", "--torn", "--after", "20")
    tell("a run to be mapped by units", run(*words, env=env)[0], 0)
    issued, done = counted(state_in("us"))
    number, flying = run_of("us"), next(it for it in range(issued) if it not in done and it - 8 in done)
    block, data = flying % 8, bytearray(read("units"))
    older, newer = (stamp(number, 0, it, block, 2 * BLOCK) for it in (flying - 8, flying))
    data[2 * BLOCK * block : 2 * BLOCK * (block + 1)] = older[:BLOCK] + newer[BLOCK:]
    write("units", bytes(data))
    torn = f"block {block} torn: wants write {flying - 8} or {flying}; 0-7 write {flying - 8} of"
    for unit, status in ((512, 0), (BLOCK, 0), (2 * BLOCK, 1)):
        came, printed, _ = run("map", "unit.fio", "units", "us", "--unit", str(unit))
        tell(f"a torn write in flight, by units of {unit}", (came, torn in printed), (status, status == 1))
    for unit in (256, 1536, 4 * BLOCK):
        tell(f"units of {unit} don't fit", run("map", "unit.fio", "units", "us", "--unit", str(unit))[:2], (2, "refused 9 OutOfLimits 0\n"))
