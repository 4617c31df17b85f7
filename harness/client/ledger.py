"""The file of a ledger: what each block of a job at a server has to hold, over many runs and checks
(crates/ledger); and when it is put aside."""
import os
import re

from note import Refused, sync_folder
from say import say
from sealed import keep_sealed, read_sealed

WHAT = "fiocut fleet ledger 1"
FORM = "server {0.server} job {0.job} block {0.block_size} blocks {0.blocks}\nfleet {0.fleet} generation {0.generation} run {0.run}\nplace {0.place}\nledger {1}\n\n"
FRONT = re.compile(rb"server (\d+) job (\d+) block (\d+) blocks (\d+)\nfleet (\d+) generation (\d+) run (\d+)\nplace ([^\n]*)\nledger (\d+)\n\n")
NAME = re.compile(r"server-(\d+)-job-(\d+)\.ledger")


class Ledger:
    """A ledger, and what it is of: which blocks where, of which fleet's runs, in which generation, and up
    to which run these were taken."""

    def __init__(self, server, job, block_size, blocks, fleet, generation, run, place, data):
        self.server, self.job, self.block_size, self.blocks = server, job, block_size, blocks
        self.fleet, self.generation, self.run, self.place, self.data = fleet, generation, run, place, data


def path_in(folder, server, job):
    return f"{folder}/server-{server}-job-{job}.ledger"


def read_ledger(path, server, job):
    """Returns it, or None where there is none yet."""
    rest = read_sealed(path, WHAT)
    if rest is None:
        return None
    front = FRONT.match(rest)
    data = rest[front.end() :] if front else b""
    if not front or len(data) != int(front[9]):
        raise Refused(f"{path}: its bytes can't be those of a ledger")
    ledger = Ledger(*(int(it) for it in front.groups()[:7]), front[8].decode(errors="replace"), data)
    if (ledger.server, ledger.job) != (server, job):
        raise Refused(f"{path}: it is the ledger of server {ledger.server} job {ledger.job}")
    return ledger


def stage_ledger(path, ledger):
    """Keeps it beside its place, on the disk."""
    keep_sealed(f"{path}.next", WHAT, FORM.format(ledger, len(ledger.data)).encode(errors="replace") + ledger.data)


def settle_ledger(path):
    """Has the one that stands beside stand in its place."""
    os.replace(f"{path}.next", path)
    sync_folder(path)


def put_aside(path, why):
    """Has a ledger stand no more in its place: nothing is told by it, and what it asks for isn't asked."""
    os.replace(path, f"{path}.old")
    sync_folder(path)
    say(f"{path}: it is put aside as .old, and a new one begins: {why}")


def settle_told(folder, runs):
    """Of the ledgers beside their places those stand there from now on whose runs have a line in a series;
    the others were told to nobody, and are taken away."""
    for name in sorted(os.listdir(folder)):
        found = NAME.fullmatch(name.removesuffix(".next")) if name.endswith(".next") else None
        if not found:
            continue
        path, at = path_in(folder, found[1], found[2]), (int(found[1]), int(found[2]))
        staged, kept = read_ledger(f"{path}.next", *at), read_ledger(path, *at)
        if staged.run in runs and not (kept and kept.run >= staged.run):
            settle_ledger(path)
        else:
            os.remove(f"{path}.next")


def refuse_damaged(folder):
    """Reads all ledgers of a folder, before anything is asked of a server."""
    for name in sorted(os.listdir(folder)):
        if found := NAME.fullmatch(name):
            read_ledger(f"{folder}/{name}", int(found[1]), int(found[2]))
