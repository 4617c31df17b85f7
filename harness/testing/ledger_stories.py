#!/usr/bin/env python3
"""Random stories of a place over many runs: ledger_stories.py COUNT [SEED].

    ledger_stories.py --plant [NAME..]    the same over readings with bugs planted: each has to be found

A story is runs by `drive write`, cut in their middle, whose state is there or lost; blocks that are
lost at rest, set back or restored; and checks by a ledger, some of which can't read each block or
end early. Each check is answered by the program that DRIVE names and by the reading of the pages in
ledger_reading.py: what is written and the status have to be the same, byte for byte. Besides, the
faults have to be those of the story, by the bytes that each block has to hold, and none over an
honest disk. Runs and maps are by REAL_DRIVE, or DRIVE where it isn't set. It ends with status 1 at
the first story that differs; story SEED alone is `ledger_stories.py 1 SEED`."""
import collections
import concurrent.futures
import os
import random
import re
import subprocess
import sys

sys.path.insert(0, os.path.dirname(os.path.realpath(__file__)))

from ledger_bytes import Key, Refused
from ledger_disks import Disk
from ledger_reading import behind_length, ledger_check, real
from ledger_runs import bytes_of, planned, random_text, run_at_random
from ledger_spoilt import spoilt

NO_LEDGER = re.compile(rb"refused 1\d\d ([A-Z]\w+)\n")
LINE = re.compile(rb"(?m)^block (\d+) ([a-z-]+): ")
AT_REST = re.compile(rb"(?m)^block \d+ at-rest: [^,\n]*, (holds zeros|holds byte|holds write|torn|unknown sectors)")


class Differs(Exception):
    """What a program answered isn't what is due."""


class Story:
    """A place, what is known of it, and what was counted."""

    def __init__(self, seed):
        self.rng = random.Random(seed)
        rng = self.rng
        bs = rng.choice((512,) * 8 + (1024, 1536, 4096))
        blocks = rng.randint(8, 64 if bs == 512 else 16)
        self.disk, self.ledger, self.number = Disk(bs, blocks), b"", 0
        self.is_honest, self.server = rng.random() < 0.3, rng.choice((0,) * 9 + (1, 7))
        self.plans = [planned(*random_text(rng, bs, blocks)) for _ in range(rng.choice((1, 1, 2, 3)))]
        self.counts = collections.Counter({"stories": 1, "honest stories": int(self.is_honest)})

    def tell(self):
        """The whole story."""
        for _ in range(min(40, 1 + int(self.rng.expovariate(1 / 6)))):
            self.run()
            for _ in range(self.rng.choice((0, 0, 1, 2))):
                if not self.is_honest and self.rng.random() < 0.7:
                    self.disk.harm(self.rng, self.last)
                self.check("ledger-rest", self.last.key, self.last.planned)
        return self.counts

    def run(self):
        """A run, and the check behind it: by its state, in a full pass, or behind a lost state."""
        self.number += self.rng.choice((1, 1, 1, 7, 1 << 40))
        run = self.last = run_at_random(self.rng, self.rng.choice(self.plans), self.number, self.server)
        self.counts["runs"] += 1
        self.disk.land(self.rng, run, bytes_of, self.is_honest)
        if not self.is_honest and self.rng.random() < 0.3:
            self.disk.harm(self.rng, run)
        if not self.is_honest and self.rng.random() < 0.15:
            self.disk.haunt(self.rng, run)
        if self.rng.random() < 0.12:
            self.counts["lost states"] += 1
            self.check("ledger-lost", run.key, run.planned, lambda: self.disk.ask_behind_lost(run.planned.order))
            return
        is_whole = len(run.done) == run.planned.job.total
        is_full = self.rng.random() < 0.1 and (is_whole or not self.is_honest)
        behind = lambda: self.disk.ask_behind(run, bytes_of, is_full)
        for _ in range(self.rng.choice((1,) * 15 + (2,))):
            self.check("ledger", run.key, run.planned, behind, b"" if is_full else run.state)

    # ---- a check, until one is whole

    def check(self, command, key, plan, behind=lambda: None, state=b""):
        """A check: with `behind` the disk asks for what the run leaves. Where the input ends early the
        old ledger stands, and it is made again."""
        due = list(self.disk.due)
        while True:
            self.disk.due = list(due)
            behind()
            data, read, is_whole = self.input()
            if self.rng.random() < 0.08:
                self.compare(command, key, plan, state, spoilt(self.rng, self.ledger), data)
            if command == "ledger" and self.rng.random() < 0.02:
                self.refuse_other_run(key, plan, state, data)
            printed, status = self.compare(command, key, plan, state, self.ledger, data)
            self.judge(printed, status, read, is_whole)
            if is_whole:
                self.disk.ask_behind_check(read)
                self.ledger = printed[printed.index(b"\nledger ") + 1 :].split(b"\n", 1)[1]
                return

    def input(self):
        """The blocks as they come, the numbers of those that are read, and whether all came."""
        rng, blocks = self.rng, self.disk.blocks
        share = rng.choice((0,) * 8 + (0.1, 0.5, 1))
        read = [block for block in range(len(blocks)) if rng.random() >= share]
        there = set(read)
        parts = [b"\1" + data if block in there else b"\0" for block, data in enumerate(blocks)]
        if rng.random() < 0.9:
            return b"".join(parts), read, True
        end = rng.randrange(len(blocks))
        part = rng.choice((b"", b"\2", b"\1", b"\1" + blocks[end][:-1]))
        return b"".join(parts[:end]) + part, [block for block in read if block < end], False

    def compare(self, command, key, plan, state, ledger, data):
        """What the program answers, which has to be what the reading does."""
        words = [str(key.run), str(key.job)] + (["--server", str(key.server)] if key.server or self.rng.random() < 0.1 else [])
        front = behind_length(plan.text) + (behind_length(state) if command == "ledger" else b"")
        ran = subprocess.run([os.environ["DRIVE"], command, *words], input=front + behind_length(ledger) + data, stdout=subprocess.PIPE)
        map_of = lambda: real("map", *words, data=front + data)[1].decode()
        try:
            due = ledger_check(command, key, plan.job, plan.order, state, ledger, data, map_of)
        except Refused as refusal:
            due = refusal.line(), 2
        told = ran.stdout, ran.returncode
        if told != due and not refuse_alike(told, due):
            raise Differs(f"{command} {' '.join(words)}: status {told[1]} and\n{shown(told[0])}where the reading has status {due[1]} and\n{shown(due[0])}")
        self.counts["checks"] += 1
        self.counts["refused ledgers"] += due[0].startswith(b"refused 1")
        return told

    def refuse_other_run(self, key, plan, state, data):
        """A state of another run is refused as a map refuses it."""
        words = [str(key.run + 1), str(key.job), "--server", str(key.server)]
        front = behind_length(plan.text) + behind_length(state)
        ran = subprocess.run([os.environ["DRIVE"], "ledger", *words], input=front + behind_length(self.ledger) + data, stdout=subprocess.PIPE)
        due = real("map", *words, data=front)
        if state and (ran.returncode, ran.stdout) != due:
            raise Differs(f"a state of another run: {ran.stdout!r}, and not {due[1]!r}")

    def judge(self, printed, status, read, is_whole):
        """The faults have to be those of the story, each told once; an honest disk has none."""
        found = [(int(block), kind.decode()) for block, kind in LINE.findall(printed)]
        faults, due = [block for block, kind in found if kind != "unread"], self.disk.faults_in(read)
        if faults != due or (self.is_honest and faults):
            raise Differs(f"faults {faults}, and not {due}, over {'an honest' if self.is_honest else 'a'} disk:\n{shown(printed)}")
        if is_whole and status != (2 if len(found) > len(faults) else 1 if faults else 0):
            raise Differs(f"status {status}:\n{shown(printed)}")
        self.counts.update(f"{kind} lines" for _, kind in found)
        self.counts.update(f"at-rest: {held.decode()}" for held in AT_REST.findall(printed))
        self.counts["whole checks"] += is_whole


def refuse_alike(told, due):
    """Both refuse the ledger's bytes, for a digest that is another or for something else. Which of
    several things is told that are wrong isn't said."""
    names = [NO_LEDGER.fullmatch(it[0]) for it in (told, due)]
    return told[1] == due[1] and all(names) and len({it[1] == b"Damaged" for it in names}) == 1


def shown(printed):
    """What was printed, its ledger in hexadecimal."""
    text, mark, ledger = printed.partition(b"\nledger ")
    length, _, data = ledger.partition(b"\n")
    rows = "".join(f"{data[at : at + 8].hex()}\n" for at in range(0, len(data), 8))
    return text.decode(errors="replace") + ("\n" if mark else "") + (f"ledger {length.decode()}\n{rows}" if mark else "")


def told_story(seed):
    """The counts of a story, or what differs in it."""
    try:
        return seed, Story(seed).tell(), None
    except Differs as found:
        return seed, {}, str(found)


def tell_stories(count, seed):
    """Tells so many stories, on all processors, and returns their counts, and the first that differs
    with what does."""
    counts = collections.Counter()
    with concurrent.futures.ProcessPoolExecutor(os.cpu_count()) as pool:
        for story, counted, found in pool.map(told_story, range(seed, seed + count)):
            counts.update(counted)
            if found:
                pool.shutdown(wait=True, cancel_futures=True)
                return counts, (story, found)
    return counts, None


def main():
    if sys.argv[1:2] == ["--plant"]:
        from ledger_planted import try_plants

        return try_plants(sys.argv[2:])
    os.environ.setdefault("REAL_DRIVE", os.environ["DRIVE"])
    counts, found = tell_stories(int(sys.argv[1]), int(sys.argv[2]) if len(sys.argv) > 2 else 1)
    if found:
        print(f"story {found[0]} differs: {found[1]}")
    print(", ".join(f"{count} {what}" for what, count in sorted(counts.items())) + f": {int(found is not None)} differ")
    return 1 if found else 0


if __name__ == "__main__":
    sys.exit(main())
