"""A folder as a target, whose blocks are files: what is written, in which order, what is refused, and what
a check says of files that aren't as a write left them."""
import os
import re

from busy import AGAIN
from guards import refused
from trying import BLOCK, LIAR, check, job, read, report, run, run_of, tell, tell_has, write
from witness import link, witness

# The steps of a write, and what the liar tells of each.
STEPS = ("create block-{0}", "write block-{0}", "fsync block-{0}", "rename block-{0}", "fsync folder")


def lying(folder, what="none"):
    """The environment of a run that the liar looks at, or that fails or is killed at a step."""
    if os.path.exists("log"):
        os.remove("log")
    return {"LD_PRELOAD": LIAR, "LIE_TARGET": f"/{folder}", "LIE_FILES": what, "LIE_LOG": os.path.abspath("log")}


def all_in(folder):
    return {it: read(f"{folder}/{it}") for it in sorted(os.listdir(folder))}


def files_written():
    """Each block is a file that holds its last write; the checks of all three programs find it so, a later
    run finds the files of an earlier one, and removes what that had in flight."""
    tell("a run over a folder that isn't there", run("write", "two.fio", "wf", "ws", "--files")[0], 0)
    data = all_in("wf")
    tell("its files", (sorted(data), {len(it) for it in data.values()}), (sorted(f"block-{it}" for it in range(64)), {BLOCK}))
    tell("whose each is", {it[:8] for it in data.values()}, {run_of("ws").to_bytes(8, "big")})
    tell("which block each is of", [int.from_bytes(data[f"block-{it}"][24:32], "big") for it in range(64)], list(range(64)))
    tell("what it rests on is kept", b"\nway files: fsync, rename, fsync of the folder\n" in read("ws"), True)
    check("its check", "two.fio", "wf", "ws", [], "--files")
    tell("its check by a link", witness("check", "two.fio", "ws", *link("wf", "--files"))[:2], (0, report([])))
    write("wf/block-7.new-3", "what was in flight")
    check("what was in flight isn't judged", "two.fio", "wf", "ws", [], "--files")
    for words in ((), ("--local",)):
        tell(f"a run by a link, {words}", witness("write", "two.fio", "ws", *words, *link("wf", "--files"))[0], 0)
        check(f"its check, {words}", "two.fio", "wf", "ws", [], "--files")
    tell("what was in flight is gone", sorted(os.listdir("wf")) == sorted(data), True)
    tell("a run whose blocks lie apart", run("write", "two.fio", "wa", "was", "--files", "--offset", "8192", "--stride", "12288")[0], 0)
    tell("its files are named by where they would lie", sorted(os.listdir("wa")), sorted(f"block-{2 + 3 * it}" for it in range(64)))
    check("its check", "two.fio", "wa", "was", [], "--files")


def files_by_ledgers():
    """What was sound stays: a file that changes at rest is told by a ledger, which wants its file system
    written out before."""
    job("few.fio", writes=16)
    tell("a run", run("write", "two.fio", "fl", "fs", "--files")[0], 0)
    tell("its check", run("check", "two.fio", "fl", "fs", "--files", "--ledger", "l")[0], 0)
    tell("a second run, of some blocks", run("write", "few.fio", "fl", "fs", "--files")[0], 0)
    old = [it for it in range(64) if int.from_bytes(read(f"fl/block-{it}")[:8], "big") != run_of("fs")]
    os.truncate(f"fl/block-{old[0]}", 0)
    os.remove(f"fl/block-{old[1]}")
    status, printed, _ = run("map", "few.fio", "fl", "fs", "--files", "--ledger", "l")
    tell("what is lost at rest", (status, sorted(it.split(":")[0] for it in printed.splitlines() if it.startswith("block "))), (1, sorted([f"block {old[0]} unread", f"block {old[1]} at-rest"])))
    env = {"LD_PRELOAD": LIAR, "LIE_TARGET": "/fl", "LIE_SYNCFS_FAILS": "1"}
    refused("a file system that can't be written out", ("check", "few.fio", "fl", "fs", "--files", "--ledger", "l"), "fl: it can't be flushed", env=env)


def files_in_order():
    """A write is told as done behind five steps in this order, and with --cached without the two that have
    it kept. What fails at a step is a failed write, and no fault."""
    job("one.fio", depth=1)
    tell("a run", run("write", "one.fio", "fo", "os", "--files", env=lying("fo"))[0], 0)
    blocks = [int(it.split("-")[1]) for it in read("log").decode().splitlines() if it.startswith("create ")]
    due = [[it.format(block) for it in STEPS] + [f"told {at}"] for at, block in enumerate(blocks)]
    tell("each write's steps, and then it is told", read("log").decode().splitlines(), sum(due, []))
    tell("a run with --cached", run("write", "one.fio", "fo", "os", "--files", "--cached", env=lying("fo"))[0], 0)
    due = [[it for it in one if not it.startswith("fsync")] for one in due]
    tell("its steps", read("log").decode().splitlines(), sum(due, []))
    for at, step in enumerate(STEPS):
        status, printed, said = run("write", "one.fio", "fo", "os", "--files", env=lying("fo", f"fail:{5 * 30 + 1 + at}"))
        tell(f"{step} fails: the status, and what was done", (status, printed), (2, f"run {run_of('os')}: 30 writes were done\n"))
        tell_has(f"{step} fails: what is said", said, "write 30 to block ")
        tell_has(f"{step} fails: the check", run("check", "one.fio", "fo", "os", "--files")[1], "report checked 30 faults 0 end whole first -")


def files_killed():
    """The agent is killed before each step of a write, alone and beside others, and no fault is told."""
    job("twice.fio", writes=128, depth=1)
    for job_file, first in (("twice.fio", 5 * 80 + 1), ("two.fio", 5 * 80 + 1)):
        for step in range(first, first + 10):
            what = f"killed before step {step} of {job_file}"
            status, printed, _ = witness("write", job_file, "ks", *link("fk", "--files"), env=lying("fk", f"kill:{step}"))
            tell(f"{what}: it is a cut", (status, " in flight at the cut" in printed), (0, True))
            status, printed, _ = witness("check", job_file, "ks", *link("fk", "--files"))
            tell(f"{what}: no fault", (status, " faults 0 end whole first -" in printed), (0, True))


def files_busy():
    """What is in flight by the state is written again and again until the cut, also beside the run's own
    writes of it, and no fault is told."""
    job("deep.fio", writes=1_000_000, more="x_window=32\n")
    for turn in range(4):
        status, _, said = run("write", "deep.fio", "fb", "bs", "--files", "--after", "200", "--cut", "sleep 0.5; kill -KILL $PPID", env=lying("fb"))
        # (an order that has just come may be in flight by the state, and not here yet)
        tell(f"busy, turn {turn}: what is said", re.search(f"of [1-8] writes in flight [1-8] {AGAIN}", said) is not None, True)
        steps = read("log").decode().splitlines()
        taken = len(steps) - 1 - steps[::-1].index(max((it for it in steps if it.startswith("told ")), key=lambda it: int(it.split()[1])))
        tell(f"busy, turn {turn}: the cut, and many writes of eight blocks at most", (status, len(steps) - taken > 100, len({it for it in steps[taken + 50 :] if it.startswith("rename ")}) <= 8), (-9, True, True))
        check_status, printed, _ = run("check", "deep.fio", "fb", "bs", "--files")
        tell(f"busy, turn {turn}: no fault", (check_status, " faults 0 end whole first -" in printed), (0, True))


def files_of_other_lengths():
    """A file that is shorter or longer than a block is a fault, also where its bytes would do, and so is
    one that isn't there, or is no file."""
    job("row.fio", order="write")
    tell("a run", run("write", "row.fio", "fn", "ns", "--files")[0], 0)
    last = [read(f"fn/block-{it}")[-1] for it in range(64)]
    tell("a block whose last byte is 0", last.index(0), 37) # (its write is 37, and 37 + 475 is 512)
    os.truncate("fn/block-37", BLOCK - 1)
    os.truncate("fn/block-3", 0)
    os.truncate("fn/block-4", BLOCK // 2)
    os.truncate("fn/block-5", 2 * BLOCK)
    os.remove("fn/block-6")
    os.remove("fn/block-7")
    os.symlink("block-8", "fn/block-7")
    write("fn/block-9", read("fn/block-9")[: BLOCK // 2] + bytes(BLOCK // 2))
    os.remove("fn/block-10")
    os.mkdir("fn/block-10")
    os.rename("fn/block-11", "fn/block-12")
    for who, printed in (("drive-target", run("map", "row.fio", "fn", "ns", "--files")), ("a witness", witness("map", "row.fio", "ns", *link("fn", "--files")))):
        kinds = {int(it.split()[1]): it.split()[2].rstrip(":") for it in printed[1].splitlines() if it.startswith("block ")}
        due = dict.fromkeys((3, 4, 5, 7, 10, 37), "unread") | {6: "unwritten", 9: "torn", 11: "unwritten", 12: "misdirected"}
        tell(f"what {who} tells of each", (printed[0], kinds), (1, due))
        tell_has(f"why, by {who}", printed[2], "block 37 can't be read: its file has 4095 bytes, and not 4096")


def files_refused():
    """A folder that holds anything else than a run's files is refused, whatever is asked for, and left as
    it was; so is one whose files hold other bytes, unless --yes is said; and what isn't to be had."""
    for what, name, make, words, why in (
        ("a file of another name", "letter", lambda at: write(at, "Dear all,"), ("--yes",), "letter in it is no file of a run's"),
        ("a hidden file", ".hidden", lambda at: write(at, ""), (), ".hidden in it is no file of a run's"),
        ("a folder", "block-3", os.mkdir, ("--yes",), "block-3 in it is no file"),
        ("a link", "block-3", lambda at: os.symlink("block-4", at), ("--yes",), "block-3 in it is no file"),
        ("a name that is almost one", "block-03", lambda at: write(at, ""), (), "block-03 in it is no file of a run's"),
        ("a name that goes on", "block-3.new-", lambda at: write(at, ""), (), "block-3.new- in it is no file of a run's"),
        ("other bytes", "block-3", lambda at: write(at, "Dear all,"), (), "block-3 in it holds other bytes: --yes"),
    ):
        folder = f"r-{what.replace(' ', '-')}"
        os.mkdir(folder)
        write(f"{folder}/block-1.new-7", "what was in flight")
        make(f"{folder}/{name}")
        held = sorted(os.listdir(folder))
        refused(what, ("write", "two.fio", folder, "rs", "--files", *words), why)
        status, printed, said = witness("write", "two.fio", "rs", *link(folder, "--files", *words))
        tell(f"{what}, at an agent", (status, printed, why in said), (2, "", True))
        tell(f"{what}: it is left as it was", (sorted(os.listdir(folder)), os.path.exists("rs")), (held, False))
    tell("other bytes, with --yes", run("write", "two.fio", folder, "rs", "--files", "--yes")[0], 0)
    for words, why in (
        (("--flush", "4"), "--flush: with --files each is told as done behind an fsync of its own"),
        (("--promise", "fua"), "--promise: with --files there is but one"),
        (("--by", "ring"), "--by: with --files threads write"),
        (("--atomic",), "--atomic: with --files a block is as whole as its file"),
        (("--torn",), "--torn: with --files a block is as whole as its file"),
    ):
        refused(f"{words}", ("write", "two.fio", "no", "rs", "--files", *words), why)
        status, printed, said = witness("write", "two.fio", "nos", "--wait", "1", *link("no", "--files", *words))
        tell(f"{words}, at an agent", (status, printed, why in said), (2, "", True))
    refused("--unit", ("check", "two.fio", folder, "rs", "--files", "--unit", "512"), "--unit: with --files a block is as whole as its file")
    refused("a folder without --files", ("check", "two.fio", folder, "rs"), "it is neither a file nor a block device")
    refused("a file with --files", ("write", "two.fio", "two.fio", "rs", "--files"), "it is no folder, as --files wants")
    refused("a folder below /dev", ("write", "two.fio", "/dev/none", "rs", "--files"), "there is no such device")
    refused("a state in the folder", ("write", "two.fio", folder, f"{folder}/s", "--files"), "it lies in the folder of the files")
    refused("another folder", ("check", "two.fio", "r-a-link", "rs", "--files"), "the run wrote to another drive (folder ")
    tell("nothing was made", os.path.exists("no"), False)
    for words, due in (((), (2, True)), (("--cached",), (0, False))):
        for command in ("write", "check"):
            status, _, said = run(command, "two.fio", folder, "rs", "--files", *words, env=lying(folder) | {"LIE_NO_DIRECT": "1"})
            tell(f"a {command} of files that take no O_DIRECT, {words}", (status, f"{folder}: it takes no O_DIRECT; --cached does without" in said), due)
