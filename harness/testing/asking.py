"""What a check asks for: it reads the blocks that it goes by, and no other, many at once, and comes to what it
comes to where all are read."""
import os
import random
import re
import shutil

from maps import written
from trying import BLOCK, HERE, LIAR, REPORT, job, read, report, run, run_whole, state_in, tell, tell_has, write
from witness import counted, link, witness

# A region of as many blocks as there may be, whose blocks lie apart, and how many of them are written.
BLOCKS, STRIDE, WRITES = 65536, 2 * BLOCK, 4000
# So many blocks of one size lie in what is read in one go, and so many reads are out at once.
IN_ONE_GO, TOGETHER = 64, 32
READ_AT = re.compile(r"^read at (\d+), (\d+)$", re.M)


def drive_that_asks():
    """The environment in which `drive` says which blocks a check goes by: as it is, or where it is older, with what
    stands in for it."""
    if run_whole("wanted", "1", "0", program=os.environ["DRIVE"])[1] != "bad command\n":
        return {}
    return {"REAL_DRIVE": os.environ["DRIVE"], "DRIVE": f"{HERE}/asking_drive.py"}


def older_drive():
    """The environment in which it doesn't: then all are read."""
    write("older-drive", '#!/bin/sh\ncase $1 in wanted*) echo "bad command"; exit 2 ;; esac\nexec "$NEWER" "$@"\n')
    os.chmod("older-drive", 0o755)
    return {"NEWER": os.environ["DRIVE"], "DRIVE": os.path.abspath("older-drive")}


def lies(target, **more):
    """The environment in which the reads of a target are told, in an empty file."""
    write("reads.log", "")
    return {"LD_PRELOAD": LIAR, "LIE_TARGET": f"/{target}", "LIE_PLACES": "1", "LIE_LOG": os.path.abspath("reads.log"), **more}


def places():
    """Where the target was read, and how many bytes there."""
    return sorted((int(at), int(length)) for at, length in READ_AT.findall(read("reads.log").decode()))


def together():
    """How many reads a ring had at once, at most."""
    return max(int(it) for it in re.findall(r"^together (\d+)$", read("reads.log").decode(), re.M))


def a_run(name, *words, blocks=BLOCKS, writes=WRITES, after=WRITES * 3 // 4, stride=STRIDE):
    """A run that is taken before its end, and the places of the blocks to which it has completed a write, by its
    state and by what the target was told."""
    env = {"LD_PRELOAD": LIAR, "LIE_LOG": os.path.abspath(f"{name}.log"), "LIE_TARGET": f"/{name}"}
    job_file = job(f"{name}.fio", blocks=blocks, writes=writes)
    tell(f"{name}: a run", run("write", job_file, name, f"{name}.state", "--cached", "--after", str(after), "--stride", str(stride), *words, env=env)[0], 0)
    done = counted(state_in(f"{name}.state"))[1]
    return job_file, sorted(block * BLOCK for block, numbers in written(read(f"{name}.log")).items() if done.intersection(numbers))


def asked_blocks():
    """Of 65,536 blocks just those are read that the state asks for, once, and 32 of them at once: by threads, by a
    ring, and by an agent. What comes in another order is handed on in that of the blocks."""
    job_file, due = a_run("apart")
    asks, sound = drive_that_asks(), report([], len(due))
    tell("some thousands of them", WRITES * 3 // 4 <= len(due) < WRITES, True)
    for what, who, way in (("by threads", run, {}), ("by a ring", run, {"LIE_RING": "1"})):
        status, printed, said = who("check", job_file, "apart", "apart.state", env={**asks, **lies("apart", **way)})
        tell(f"a check {what}", (status, printed, "older" in said), (0, sound, False))
        tell(f"a check {what}: the blocks that are read", places() == [(at, BLOCK) for at in due], True)
        tell(f"a check {what}: how many reads", len(places()), len(due))
    tell("a ring has so many at once", together(), TOGETHER)
    tell("threads, whose reads wait for each other", run("check", job_file, "apart", "apart.state", env={**asks, **lies("apart", LIE_TOGETHER=str(TOGETHER))})[:2], (0, sound))
    tell("threads have so many at once", "alone" in read("reads.log").decode(), False)
    for what, way in (("by threads", {}), ("by a ring", {"LIE_RING": "1"})):
        status, printed, _ = witness("check", job_file, "apart.state", *link("apart"), env={**asks, **lies("apart", **way)})
        tell(f"an agent {what}", (status, printed, places() == [(at, BLOCK) for at in due], len(places())), (0, sound, True, len(due)))
    data = read("apart")
    for way in ({}, {"LIE_RING": "1"}):
        harmed = sorted(random.Random(5).sample([at // STRIDE for at in due], 30))
        write("harmed", b"")
        os.truncate("harmed", len(data))
        with open("harmed", "r+b") as it:
            for at in due:
                it.seek(at)
                it.write(bytes(BLOCK) if at // STRIDE in harmed else data[at : at + BLOCK])
        tell(f"faults among them, {way}", run("check", job_file, "harmed", "apart.state", "--other-drive", env={**asks, **lies("harmed", **way)})[:2], (1, report(harmed, len(due))))


def asked_neighbours():
    """Neighbouring blocks are read in one go, up to 256 KiB, and none that isn't asked for. Where nothing is asked
    for nothing is read; and where `drive` is older all are, which is said."""
    job_file, due = a_run("dense", blocks=4096, writes=4096, after=3500, stride=BLOCK)
    asks, runs = drive_that_asks(), []
    for at in due:
        if runs and sum(runs[-1]) == at and runs[-1][1] < IN_ONE_GO * BLOCK:
            runs[-1] = (runs[-1][0], runs[-1][1] + BLOCK)
        else:
            runs.append((at, BLOCK))
    for way in ({}, {"LIE_RING": "1"}):
        tell(f"a check, {way}", run("check", job_file, "dense", "dense.state", env={**asks, **lies("dense", **way)})[:2], (0, report([], len(due))))
        tell(f"a check, {way}: what is read", (len(places()), places() == runs), (len(runs), True))
    tell("so many of them at once", together(), TOGETHER)
    status, printed, said = run("check", job_file, "dense", "dense.state", env={**older_drive(), **lies("dense")})
    tell("an older drive", (status, printed, places()), (0, report([], len(due)), [(at, IN_ONE_GO * BLOCK) for at in range(0, 4096 * BLOCK, IN_ONE_GO * BLOCK)]))
    tell_has("an older drive: what is said", said, "`drive` is older than this harness")
    whole = job("none.fio", blocks=64, writes=64)
    tell("a lost run", run("check", whole, "dense", "-", "--lost", "--ledger", "N", env={**asks, **lies("dense")})[0], 3)
    tell("a lost run: what is read", places(), [])


def asked_in_vain():
    """A drive that is killed while it says what a check asks for, or doesn't say it of each block, is no answer; one
    that refuses the state is told by the check."""
    tell("a run", run("write", "two.fio", "t", "s")[0], 0)
    for what, text, why in (("is killed", "kill -KILL $$", "it was killed"), ("says too little", "printf 1234567", "it doesn't say of each block"), ("says too much", "printf 123456789", "it doesn't say of each block")):
        write("vain", f'#!/bin/sh\ncase $1 in wanted*) {text}; exit 0 ;; esac\nexec "$REAL" "$@"\n')
        os.chmod("vain", 0o755)
        for who, words in ((run, ("two.fio", "t", "s")), (witness, ("two.fio", "s", *link("t")))):
            status, printed, said = who("check", *words, env={"DRIVE": os.path.abspath("vain"), "REAL": os.environ["DRIVE"], **lies("t")})
            tell(f"a drive that {what}", (status, printed, why in said, places()), (2, "", True, []))
    data = bytearray(state_in("s"))
    data[100] ^= 1
    write("harmed-state", bytes(data))
    found = [run("check", "two.fio", "t", "harmed-state", whole=True, env=env)[:2] for env in (drive_that_asks(), older_drive())]
    tell("a state that is refused", (found[0], "refused " in found[0][1]), (found[1], True))


def asked_of_all():
    """Of a large region in a row, most of which was written, all is read, and nobody is asked which blocks: that
    would take longer. Of one at a stride, or one that has little, it is asked."""
    write("never", '#!/bin/sh\ncase $1 in wanted*) kill -KILL $$ ;; esac\nexec "$REAL" "$@"\n')
    os.chmod("never", 0o755)
    env = {"DRIVE": os.path.abspath("never"), "REAL": os.environ["DRIVE"]}
    for what, words, after, due in (("most", (), 5000, 0), ("little", (), 3000, 2), ("a stride", ("--stride", "1024"), 5000, 2)):
        job("large.fio", blocks=16384, writes=16384, block_size=512, more="x_window=128\n")
        tell(f"a run of {what}", run("write", "large.fio", f"lr{after}{len(words)}", "ls", "--cached", "--after", str(after), *words)[0], 0)
        tell(f"a check of {what}", run("check", "large.fio", f"lr{after}{len(words)}", "ls", "--cached", env=env)[0], due)


def asked_unread():
    """A block that can't be read costs no other, with its reason; one that isn't asked for isn't missed. It is never
    told by other bytes than its own."""
    job_file, due = a_run("unread", blocks=512, writes=256, after=200)
    asks, blocks = drive_that_asks(), [at // STRIDE for at in due]
    others = next(it for it in range(512) if it not in blocks)
    bad = sorted([blocks[0], blocks[7], blocks[40], blocks[41], blocks[-1]])
    unreadable = ",".join(str(it * STRIDE + 99) for it in (*bad, others))
    for what, who in (("drive-target", lambda env: run("map", job_file, "unread", "unread.state", env=env)), ("a witness", lambda env: witness("map", job_file, "unread.state", *link("unread"), env=env))):
        for way in ({}, {"LIE_RING": "1"}):
            status, printed, said = who({**asks, **lies("unread", LIE_UNREADABLE=unreadable, **way)})
            found = [int(it) for it in re.findall(r"^block (\d+) unread: ", printed, re.M)]
            tell(f"{what}, {way}: blocks that can't be read", (status, found, REPORT.search(printed)[1]), (1, bad, report([], len(due) - 5)[:-1]))
            tell(f"{what}, {way}: why", sorted(int(it) for it in re.findall(r"block (\d+) can't be read: Input/output error", said)), bad)


# ---- stories: what a check comes to where it asks, and where all is read


class Story:
    """A region that is written, harmed and checked at random, twice each time: by a drive that says what it asks
    for, and by an older one."""

    def __init__(self, seed, asks, older):
        self.rng, self.name, self.drives = random.Random(seed), f"story{seed}", (older, asks)
        rng = self.rng
        self.blocks, self.apart = rng.choice((8, 9, 63, 64, 65, 200, 700)), rng.choice((1, 1, 2, 3))
        self.where = ("--stride", str(self.apart * BLOCK), "--offset", str(rng.choice((0, 2)) * BLOCK))
        self.job_file = job(f"{self.name}.fio", blocks=self.blocks, writes=rng.randint(1, 3 * self.blocks), depth=rng.choice((1, 4, 16)), order=rng.choice(("write", "randwrite")), more=rng.choice(("", "x_window=64\n")))
        self.by_ledger = rng.random() < 0.6

    def harm(self):
        """Harms some blocks, and perhaps cuts the target short."""
        data, front = bytearray(read(self.name)), int(self.where[3])
        for block in self.rng.sample(range(self.blocks), self.rng.choice((0, 0, 1, 4))):
            at = front + block * self.apart * BLOCK
            data[at : at + BLOCK] = self.rng.choice((bytes(BLOCK), b"\xaa" * BLOCK, bytes(512) + data[at + 512 : at + BLOCK], data[front : front + BLOCK]))
        if self.rng.random() < 0.1:
            del data[len(data) // BLOCK // 2 * BLOCK :]
        write(self.name, bytes(data))

    def lies(self):
        """Which blocks can't be read, and whether reads are by a ring."""
        bad = [int(self.where[3]) + self.rng.randrange(self.blocks) * self.apart * BLOCK for _ in range(self.rng.choice((0, 0, 1, 3)))]
        lies = {"LD_PRELOAD": LIAR, "LIE_TARGET": f"/{self.name}", **({"LIE_UNREADABLE": ",".join(map(str, bad))} if bad else {})}
        return self.rng.choice((lies, {**lies, "LIE_RING": "1"}))

    def checked(self, words, env, by_witness):
        """What a check printed, kept and came to."""
        if os.path.exists(f"{self.name}.ledger"):
            shutil.copy(f"{self.name}.ledger", f"{self.name}.ledger.now")
        command, state, *more = words
        who = [command, self.job_file, state, *link(self.name), *more] if by_witness else [command, self.job_file, self.name, state, *more]
        found = (witness if by_witness else run)(*who, env=env, whole=True)[:2]
        kept = sorted(it for it in os.listdir(".") if it.startswith((f"{self.name}.ledger.now", f"{self.name}.state.block-")))
        bytes_of = {it: re.sub(rb"(?s)^.*?\nkept [^\n]*", b"", read(it)) for it in kept}
        for it in kept:
            os.rename(it, it.replace(".ledger.now", ".ledger.new"))
        return found, bytes_of

    def check(self, words):
        lies, by_witness = self.lies(), self.rng.random() < 0.3 and "-" not in words
        (before, kept_before), (now, kept) = (self.checked(words, {**drive, **lies}, by_witness) for drive in self.drives)
        if os.path.exists(f"{self.name}.ledger.new"):
            os.replace(f"{self.name}.ledger.new", f"{self.name}.ledger")
        return (now, sorted(kept)) if now != before or kept != kept_before else None, (before, sorted(kept_before)), now[0]

    def tell(self):
        """What differs first, and how many checks had each status."""
        counts, rng = [0] * 4, self.rng
        for _ in range(rng.choice((1, 2, 3))):
            cached = () if rng.random() < 0.2 else ("--cached",)
            run("write", self.job_file, self.name, f"{self.name}.state", "--after", str(rng.randint(1, 2 * self.blocks)), *self.where, "--yes", *cached)
            for _ in range(rng.choice((1, 2))):
                self.harm()
                state, more = f"{self.name}.state", rng.choice(((), ("--dump", "3"), ("--unit", "512")))
                if self.by_ledger:
                    is_lost = rng.random() < 0.1
                    state, more = "-" if is_lost else state, ("--ledger", f"{self.name}.ledger.now", *(("--lost", *self.where) if is_lost else ()))
                differs, before, status = self.check((rng.choice(("check", "map")), state, *more))
                counts[status if status is not None else 2] += 1
                if differs:
                    return (differs, before), counts
        return None, counts


def asked_alike():
    """Over random stories a check that asks comes to the same lines, verdict, status, ledger and kept blocks as one
    that reads all."""
    asks, older, counts = drive_that_asks(), older_drive(), [0] * 4
    for seed in range(60):
        found, counted_here = Story(seed, asks, older).tell()
        counts = [a + b for a, b in zip(counts, counted_here)]
        if found:
            tell(f"story {seed}", *found)
            return
    tell("all stories are alike", found, None)
    tell("checks that are sound, and that have faults", [it > 20 for it in counts[:2]], [True, True])
