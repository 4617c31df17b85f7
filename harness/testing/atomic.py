"""Atomic writes: what is told of them, that each block is one where that is asked for, what is refused,
and a cut within them."""
import os
import subprocess

from guards import loop_device, refused
from serving import SERVER, Servers, fleet, job_file
from trying import HANG, LIAR, QUIET, WITNESS, check, comes, job, read, report, run, run_of, state_in, tell, tell_has, write
from witness import faults_by, kill_agent, link, witness

# Of what sizes the liar tells; what its devices write whole; and what makes its writes.
UNIT, WHOLE, WAYS = "1024:32768", "512", {"threads": {}, "ring": {"LIE_RING": "1"}}
TOLD = "tells of atomic writes"


def lying(target, unit=UNIT, **more):
    """The liar's environment, in which this is told of atomic writes to a target, and a device writes 512
    bytes whole."""
    os.makedirs("queue", exist_ok=True)
    write("queue/physical_block_size", f"{WHOLE}\n")
    return {"LD_PRELOAD": LIAR, "LIE_TARGET": f"/{target}", "LIE_ATOMIC": unit, "LIE_QUEUE": os.path.abspath("queue"), "LIE_LOG": os.path.abspath("log"), **more}


def kinds_in_log():
    """How many writes of which kind the liar has seen. It forgets them."""
    kinds = [line.split()[0] for line in read("log").decode().splitlines()]
    os.remove("log")
    return {it: kinds.count(it) for it in kinds}


def atomic_units():
    """What the system tells of atomic writes, drive-target and the agent say: a file system of its files,
    and the kernel of a device. A file's device isn't asked."""
    for unit, due in ((UNIT, "of 1024 to 32768 bytes\n"), ("0:0", "")):
        env = lying("au", unit)
        for who, said in (
            ("drive-target", run("write", "two.fio", "au", "as", "--torn", env=env)[2]),
            ("an agent", witness("write", "two.fio", "as", *link("au", "--torn"), env=env)[2]),
        ):
            told = [it.split(", ", 1)[1] + "\n" for it in said.splitlines() if TOLD in it]
            tell(f"{who} tells a unit, {unit}", told, [due] if due else [])
    write("disk", bytes(1 << 20))
    device = loop_device()
    env = lying("au", "0:0")
    write("queue/atomic_write_unit_min_bytes", "512\n")
    write("queue/atomic_write_unit_max_bytes", "16384\n")
    tell("a file isn't told of by its device", TOLD in run("write", "two.fio", "au", "as", "--torn", env=env)[2], False)
    if device:
        said = run("write", "two.fio", device, "as", "--torn", env={**env, "LIE_ATOMIC": ""})[2]
        subprocess.run(["losetup", "-d", device])
        tell_has("a device is told of by its queue", said, f"{TOLD} to it, of 512 to 16384 bytes\n")


def refused_units():
    """With --atomic blocks are refused that are no atomic write, before the first write, and a target that
    isn't O_DIRECT; and without it a larger block than is written whole still is."""
    job("wide.fio", blocks=16, block_size=65536)
    job("odd.fio", blocks=16, block_size=12288)
    for what, unit, words, due in (
        ("nobody tells a unit", "0:0", ("two.fio", "--atomic"), "tells of no atomic write to it (0 bytes), and a block has 4096"),
        ("a block above it", UNIT, ("wide.fio", "--atomic"), "has 1024 to 32768 bytes, a power of two, and a block has 65536"),
        ("a block below it", "8192:65536", ("two.fio", "--atomic"), "has 8192 to 65536 bytes, a power of two, and a block has 4096"),
        ("a block that is no power of two", UNIT, ("odd.fio", "--atomic"), "a power of two, and a block has 12288"),
        ("--cached", UNIT, ("two.fio", "--atomic", "--cached"), "with --cached writes go to memory"),
        ("no --atomic", UNIT, ("two.fio",), "take bs=512, --atomic, or --torn, and --unit 512 for the check"),
        ("neither", "0:0", ("two.fio",), "take bs=512, or --torn, and --unit 512 for the check"),
    ):
        env = lying("ru", unit)
        write("ru", bytes(4 << 20))
        refused(what, ("write", words[0], "ru", "rs", *words[1:]), due, env=env)
        status, printed, said = witness("write", words[0], "rs", *link("ru", *words[1:]), env=env)
        tell(f"{what}, at an agent", (status, printed, due in said), (2, "", True))
        tell(f"{what}: nothing is written", (any(read("ru")), os.path.exists("rs"), os.path.exists("log") and any(read("log"))), (False, False, False))
    refused("for a check", ("check", "two.fio", "ru", "rs", "--atomic"), "for another command")


def atomic_writes():
    """With --atomic each write is one, by threads and by a ring, whoever gives the orders; and without it
    none is. What they rest on is said and kept. A write that the system refuses fails."""
    for by, ring in WAYS.items():
        name, env = "io_uring" if by == "ring" else by, lying("aw", **ring)
        for words, way, due in (
            (("--atomic",), "fua atomic", {"atomic": 128}),
            (("--atomic", "--flush", "4"), "flush atomic", {"atomic": 128}),
            (("--atomic", "--promise", "through", "--queue", "2"), "through atomic", {"atomic": 128}),
            (("--torn",), "fua", {"made": 128}),
        ):
            status, _, said = run("write", "two.fio", "aw", "as", "--by", by, *words, env=env)
            tell(f"by {by}, {words}", (status, kinds_in_log()), (0, due))
            tell(f"by {by}, {words}: the way", (f"rest on this: {way} by {name}\n" in said, f"\nway {way} by {name}\n".encode() in read("as")), (True, True))
            check(f"by {by}, {words}: the check", "two.fio", "aw", "as", [])
        for words in ((), ("--local",)):
            status, printed, said = witness("write", "two.fio", "as", *words, *link("aw", "--atomic", "--by", by), env=env)
            tell(f"an agent by {by}, {words}", (status, printed, kinds_in_log()), (0, f"run {run_of('as')}: 128 ordered, 128 told, 0 in flight\n", {"atomic": 128}))
            tell(f"an agent by {by}, {words}: the way", (f"rest on this: fua atomic by {name}\n" in said, f"\nway fua atomic by {name}\n".encode() in read("as")), (True, True))
            tell_has(f"an agent by {by}, {words}: what it writes whole", said, "writes 32768 whole")
        for taken in (0, 2048):
            status, _, said = run("write", "two.fio", "aw", "as", "--by", by, "--atomic", env={**env, "LIE_ATOMIC": f"{UNIT}:{taken}"})
            tell(f"by {by}, refused at the write, above {taken}", (status, "the system takes no such atomic write" in said, kinds_in_log()), (2, True, {}))


def atomic_fleets():
    """A fleet's server writes each block by an atomic write where that is asked for, also what is made again,
    and no other; what is no atomic write is refused before a run begins, or the server's start."""
    job_file("af.fio", jobs=1, blocks=64, writes=100_000)
    for words, due in ((("--atomic",), {"atomic"}), (("--torn",), {"made"}), (("--atomic", "--flush", "4"), {"atomic"})):
        servers = Servers("af", 0, jobs=1)
        servers.count, servers.running = 1, [None]
        servers.start(0, lying("af-0-0"), words)
        tell(f"a fleet's run, {words}", fleet("write", "af.fio", "--note", "af.note", "--after-writes", "64", *servers.links())[0], 0)
        tell(f"how it is written, {words}", {*kinds_in_log()}, due)
        tell(f"its check, {words}", fleet("check", "af.fio", "--note", "af.note", *servers.links())[0], 0)
        tell(f"what is told of it, {words}", b"af-0-0: the system tells of atomic writes to it, of 1024 to 32768 bytes" in read(servers.said(0)), True)
        servers.cut()
    servers.start(0, lying("af-0-0", "8192:65536"), ("--atomic",))
    status, _, said = fleet("write", "af.fio", "--note", "af.note", *servers.links())
    tell("a run of blocks that are no atomic write", (status, "job 0: an atomic write to af-0-0 has 8192 to 65536 bytes, a power of two, and a block has 4096" in said, os.path.exists("log") and read("log")), (2, True, b""))
    servers.cut()
    for unit, words, why in (("0:0", ("--atomic",), "the system tells of no atomic write to it"), (UNIT, ("--atomic", "--cached"), "with --cached writes go to memory")):
        status, _, said = run("0", "an-0-0", "--note", "an.note", *words, program=SERVER, env=lying("an-0-0", unit))
        tell(f"a server that is refused, {words}", (status, why in said), (2, True))


def cut_writes(what, job_file, words, env, *by_witness):
    """Has a witness write until all that are in flight are cut within, and its agent is killed. Returns
    which blocks are at fault by what the target then holds, and tells whether the check says so."""
    for file in ("agent", "log", "ac"):
        if os.path.exists(file):
            os.remove(file)
    ran = subprocess.Popen([WITNESS, "write", job_file, "as", *by_witness, *link("ac", *words)], env={**os.environ, **env}, **QUIET)
    is_cut = comes(lambda: os.path.exists("log") and read("log").count(b"cut ") > 4) # (some may wait for a flush)
    kill_agent()
    tell(f"{what}: the run", (is_cut, ran.wait(HANG)), (True, 0))
    due = faults_by(read("log"), state_in("as"), read("ac"), 64)
    tell(f"{what}: its check", witness("check", job_file, "as", *link("ac", *words))[:2], (1 if due else 0, report(due)))
    return due


def cut_atomic_writes():
    """A drive that tears what it writes as it is cut, but makes an atomic write whole or not at all: with
    --atomic no block is at fault, and without it those are that were in flight."""
    job("cut.fio", blocks=64, writes=1_000_000, more="x_window=32\n") # (none waits for one that is done late)
    for by, ring in WAYS.items():
        env = lying("ac", LIE="cut:1:200", **ring)
        for words in ((), ("--local",)):
            what = f"a cut by {by}, {words}"
            tell(f"{what}: no fault with --atomic", cut_writes(f"{what}, --atomic", "cut.fio", ("--atomic", "--by", by), env, *words), [])
            tell(f"{what}: faults without it", len(cut_writes(f"{what}, --torn", "cut.fio", ("--torn", "--by", by), env, *words)) > 0, True)
        tell(f"a cut by {by} with flushes: no fault", cut_writes(f"a cut by {by}, --flush", "cut.fio", ("--atomic", "--by", by, "--flush", "4"), env), [])
