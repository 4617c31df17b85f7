"""What a fleet's check tells of each faulty block, by the state of its job at its server."""
import json
import re

from maps import KINDS, few, harm, mapped, pieces, written
from serving import Servers, fleet, job_file
from trying import BLOCK, LIAR, put, read, stamp, tell, tell_has, write

CHECK = ("check", "mapped.fio", "--note", "mapped.note")


def harm_more(data, run_number, last):
    """Harms by what only a fleet has: a block of another server, and one bit of a server's number, in
    job 1 of server 1. Returns the lines that are due."""

    def said(number, block, server):
        return f"write {number} of block {block} of job 1 of server {server} of run {run_number}"

    there = stamp(run_number, 1, last[12], 12, server=0)
    put(data, 12, there)
    data[13 * BLOCK + 11] ^= 2
    differs = few(stamp(run_number, 1, last[12], 12, server=1), there, last[12])
    return {
        12: f"misdirected: wants write {last[12]}, holds {said(last[12], 12, 0)}{differs}",
        13: f"corrupt: wants write {last[13]}, unknown sectors 0, differs from write {last[13]} by bits 1 first at sector 0 byte 11" + pieces((0, 0, said(last[13], 13, 3)), (1, 7, said(last[13], 13, 1))),
    }


def due_lines(due, kinds, checked=64):
    return "".join(f"server 1 job 1: {it}\n" for it in mapped(due, checked, kinds).splitlines())


def fleet_maps():
    """Each kind at its block, at the second job of the second server; and a block that can't be
    read."""
    job_file("mapped.fio", jobs=2, blocks=64, writes=128)
    servers = Servers("mapped", 0)
    servers.count, servers.running = 2, [None, None]
    servers.start(0)
    servers.start(1, {"LD_PRELOAD": LIAR, "LIE_TARGET": "mapped-1-1", "LIE_LOG": "mapped.log"})
    status, printed, _ = fleet("write", "mapped.fio", "--note", "mapped.note", "--after-writes", "512", *servers.links())
    tell("a fleet that is to be mapped", status, 0)
    run_number = int(re.search(r"run (\d+)", printed)[1])
    servers.cut()
    servers.restart()
    tell("a map of what is sound", fleet(*CHECK, "--map", *servers.links())[:2], fleet(*CHECK, *servers.links())[:2])
    servers.cut()
    data, of_block = bytearray(read("mapped-1-1")), written(read("mapped.log"))
    due = harm(data, run_number, of_block, 1, 1)
    due |= harm_more(data, run_number, {block: max(numbers) for block, numbers in of_block.items()})
    write("mapped-1-1", bytes(data))
    kinds = KINDS.replace("misdirected 1", "misdirected 2").replace("corrupt 1", "corrupt 2")
    servers.restart()
    status, printed, _ = fleet(*CHECK, "--map", *servers.links())
    tell("each kind", (status, printed.partition("server 1 job 1: block")[2]), (1, due_lines(due, kinds).partition("server 1 job 1: block")[2] + f"run {run_number}: faults, 256 checked, {len(due)} faults\n"))
    status, printed, _ = fleet(*CHECK, "--map", "--json", *servers.links())
    told = [json.loads(it) for it in printed.splitlines()]
    tell("for programs", {it["block"]: it["kind"] for it in told if "block" in it}, {block: line.split(":")[0] for block, line in due.items()})
    servers.cut()
    unread_block(servers, due, kinds, of_block)
    no_drive(servers)


def unread_block(servers, due, kinds, of_block):
    """A check ends at a block that can't be read; a map goes on behind it."""
    due[10] = f"unread: wants write {max(of_block[10])}"
    servers.start(0)
    servers.start(1, {"LD_PRELOAD": LIAR, "LIE_TARGET": "mapped-1-1", "LIE_UNREADABLE": str(10 * BLOCK + 7)})
    status, printed, _ = fleet(*CHECK, "--map", *servers.links())
    tell("with one that can't be read", (status, "end read 10" in printed, due_lines(due, f"{kinds} unread 1", 63) in printed), (1, True, True))
    servers.cut()


def no_drive(servers):
    """Without the program there is no check, and without the state no map."""
    servers.restart()
    status, printed, said = fleet(*CHECK, "--map", *servers.links(), env={"DRIVE": "no-such-drive"})
    tell("no drive", (status, printed, "no-such-drive: there is no such program" in said), (2, "", True))
    run_number = re.search(r"run (\d+)", fleet(*CHECK, *servers.links())[1])[1]
    servers.cut()
    servers.restart()
    _, _, said = fleet("check", "mapped.fio", "--note", "unknown.note", "--run", run_number, "--map", *servers.links())
    tell_has("no state", said, "server 1 job 1: no map without its state")
    servers.cut()
