"""When a fleet's ledgers are refused, put aside, or go on; and that a target is flushed before it is read for
one."""
import os
import re
import shlex

from fleet_mirrors import mirror
from fleet_rooms import fill
from ledger_fleets import LEDGERS, PLACES, Kept, all_sound, rests, tell_rests
from serving import TOP, fleet, job_file
from trying import LIAR, read, tell, write


def fleet_ledgers_refused():
    """Ledgers that aren't as they were kept, and a `drive` that takes none, are told before anything is
    asked of a server; and so is what no folder can be."""
    servers = Kept("refused")
    servers.run(servers.all)
    tell_rests("the first check", servers.check(servers.all), 0, all_sound())
    servers.restart()
    path, other = "L/server-1-job-0.ledger", read("L/server-0-job-1.ledger")
    kept = read(path)
    begun = lambda: sum(read(servers.said(it)).count(b"a check of run") for it in range(2))
    harmed = [(f"byte {at}", kept[:at] + bytes([kept[at] ^ 1]) + kept[at + 1 :]) for at in (*range(0, 200, 13), len(kept) - 1)]
    harmed += [(f"the first {length} bytes", kept[:length]) for length in (0, 20, 90, len(kept) - 1)] + [("another place's", other)]
    for what, data in harmed:
        write(path, data)
        before = begun()
        status, printed, said = fleet("check", servers.all, *servers.words("--ledger", "L"))
        tell(f"a ledger that is harmed: {what}", (status, printed, "server-1-job-0.ledger: " in said, read(path) == data, begun() == before), (2, "", True, True, True))
    write(path, kept)
    write("old-drive", '#!/bin/sh\ncase $1 in ledger*) echo "bad command"; exit 2 ;; esac\nexec "$REAL" "$@"\n')
    os.chmod("old-drive", 0o755)
    before = begun()
    for env, why in (({"DRIVE": os.path.abspath("old-drive"), "REAL": os.environ["DRIVE"]}, "takes no ledgers"), ({"DRIVE": "no-such-drive"}, "--ledger wants `drive`")):
        status, printed, said = fleet("check", servers.all, *servers.words("--ledger", "L"), env=env)
        tell(f"a drive: {why}", (status, printed, why in said, begun() == before), (2, "", True, True))
    status, printed, said = fleet("check", servers.all, *servers.words("--ledger", servers.all))
    tell("a file for a folder", (status, printed), (2, ""))
    servers.cut()
    tell_rests("as they were", servers.check(servers.all), 0, all_sound())


def fleet_ledgers_aside():
    """Where it isn't known who may have written since, a ledger is put aside, which is said; and so is one
    of other blocks, or of another target. Nothing is told of targets that keep all."""
    servers = Kept("aside")
    servers.run(servers.all)
    tell_rests("the first check", servers.check(servers.all), 0, all_sound())

    def aside(what, why, file, **note):
        status, printed, said = servers.check(file, **note)
        tell(what, (status, {at: it[1] for at, it in rests(printed).items()}), (0, {it: 0 for it in PLACES}))
        tell(f"{what}: it is said", len(re.findall(f"put aside as .old, and a new one begins: .*{why}", said)), 4)
        tell(f"{what}: what was there stays beside", sorted(os.listdir("L")), sorted([*LEDGERS, *(f"{it}.old" for it in LEDGERS)]))
        tell(f"{what}: and nothing at the next check", servers.check(file, **note)[2].count("put aside"), 0)

    servers.restart()
    servers.run(servers.few, note="new.client")
    aside("another fleet's", "another note", servers.few, note="new.client")
    wide = job_file("wide.fio", blocks=128, writes=256)
    servers.restart()
    servers.run(wide, note="new.client")
    aside("other blocks", "of 64 blocks of 4096 bytes, and this job has 128", wide, note="new.client")
    servers.restart()
    servers.run(servers.few, note="new.client")
    servers.restart()
    servers.run(wide, note="new.client")
    aside("other blocks between", "had other blocks there", wide, note="new.client")
    servers.restart()
    servers.run(wide, note="new.client")
    os.remove("new.client.runs")
    servers.restart()
    servers.run(wide, note="new.client")
    aside("a run whose job isn't known", "had isn't known", wide, note="new.client")
    for server, job in PLACES:
        name = servers.targets(server)[job]
        write(f"{name}.copy", read(name))
        os.replace(f"{name}.copy", name)
        os.remove(f"{servers.note(server)}.targets") if job else None
    aside("another target's", "of another target", wide, note="new.client")


def fleet_ledgers_of_new_fleets():
    """Where a note is full and a new fleet takes the place of the old one, the ledgers go on: what the old
    one has written, checked or not, is known."""
    servers = Kept("follows")
    first = servers.run(servers.all)
    tell_rests("the first check", servers.check(servers.all), 0, all_sound())
    servers.restart()
    servers.run(servers.few)
    fill("follows.client")
    servers.restart()
    servers.run(job_file("fewer.fio", blocks=64, writes=3))
    tell("a new fleet has begun", os.path.exists("follows.client.full-1"), True)
    lost = servers.holders(1, 1, first)[0]
    servers.zero(1, 1, lost)
    found = servers.check("fewer.fio")
    tell("the ledgers go on", (found[0], {at: it[1] for at, it in rests(found[1]).items()}, "put aside" in found[2]), (1, {it: int(it == (1, 1)) for it in PLACES}, False))
    tell("but for what the run may have written whose state is in the old note", {64 - 12 <= it[0] < 64 for it in rests(found[1]).values()}, {True})
    tell("once", [it[1] for it in rests(servers.check("fewer.fio")[1]).values()], [0] * 4)


def fleet_ledgers_with_a_mirror():
    """With a mirror the ledgers go on from run to run. Where the client's note is lost nobody knows which runs
    an earlier client began, so they are put aside."""
    servers = Kept("mirrored", mirror("mirrored.kept"))
    servers.run(servers.all)
    tell_rests("the first check", servers.check(servers.all), 0, all_sound())
    for turn in range(2):
        servers.restart()
        servers.run(servers.few)
        found = servers.check(servers.few)
        tell_rests(f"a later one, {turn}", found, 0, all_sound())
        tell("by the same ledgers", "put aside" in found[2], False)
    os.remove("mirrored.client")
    found = servers.check(servers.few)
    tell_rests("without the note", found, 0, {it: (12, 0) for it in PLACES})
    tell("the ledgers are put aside", found[2].count("put aside as .old"), 4)
    servers.restart()
    servers.run(servers.all)
    found = servers.check(servers.all)
    tell_rests("and then they go on", found, 0, all_sound())
    tell("by the same ledgers again", "put aside" in found[2], False)


def fleet_ledgers_over_bad_links():
    """Over links that lose, repeat and delay frames, and end, the ledgers tell the same."""
    servers = Kept("badly")
    first = servers.run(servers.all)
    tell_rests("the first check", servers.check(servers.all), 0, all_sound())
    servers.restart()
    servers.run(servers.few)
    lost = servers.holders(1, 0, first)[0]
    servers.zero(1, 0, lost)
    servers.before_links = f"exec {shlex.quote(f'{TOP}/tools/bad-link')} --cut 0.03"
    found = servers.check(servers.few)
    tell_rests("over bad links", found, 1, all_sound() | {(1, 0): (64, 1)}, 1)
    tell_rests("once", servers.check(servers.few), 0, all_sound() | {(1, 0): (63, 0)})


def fleet_ledgers_flushed():
    """A server has its target's cache written out before it reads for a check by a ledger; where that fails
    it reads nothing, and the ledger stays."""
    servers = Kept("flushed")
    servers.run(servers.all)
    log, path = os.path.abspath("flushed.log"), os.path.abspath("flushed-1-0")
    servers.lies[1] = {"LD_PRELOAD": LIAR, "LIE_TARGET": "flushed-1-0", "LIE_READS": "1", "LIE_SYNCS": "1", "LIE_LOG": log}
    write(log, "")
    tell_rests("a check by ledgers", servers.check(servers.all), 0, all_sound())
    lines = [it for it in read(log).decode().splitlines() if "flushed-1-0" in it]
    at = lines.index(f"synced {path}") if f"synced {path}" in lines else -1
    tell("a read, the flush, and reads behind it", (at > 0, len(lines) > at + 1, lines.count(f"synced {path}")), (True, True, 1))
    write(log, "")
    servers.restart()
    tell("without a ledger", fleet("check", servers.all, *servers.words())[0], 0)
    servers.cut()
    tell("nothing is flushed", f"synced {path}" in read(log).decode(), False)
    write(log, "")
    servers.lies[1]["LIE_SYNC_FAILS"] = "1"
    before = read("L/server-1-job-0.ledger")
    status, printed, _ = servers.check(servers.all)
    tell("a flush that fails", (status, "server 1 job 0: no check by its ledger: flushed-1-0: it can't be flushed: Input/output error\n" in printed), (2, True))
    tell("its ledger stays, and the others are checked", (read("L/server-1-job-0.ledger") == before, sorted(rests(printed))), (True, [it for it in PLACES if it != (1, 0)]))
    lines = [it for it in read(log).decode().splitlines() if "flushed-1-0" in it]
    tell("and nothing is read behind it", lines[-1:], [f"synced {path}"])
