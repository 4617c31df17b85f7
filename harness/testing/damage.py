"""What a check finds: each kind of damage, targets that lie, and blocks that can't be read."""
import os
import shutil

from trying import BLOCK, LIAR, check, job, put, read, report, run, run_of, stamp, tell, tell_has, whole_run, write


def harmed(what, change, faults):
    """Harms a copy of the target that stands in `t`, and checks that."""
    data = bytearray(read("t"))
    change(data)
    write("harmed", bytes(data))
    check(what, "two.fio", "harmed", "s", faults, "--other-drive")


def whole_runs():
    """Whole runs, and each kind of damage."""
    status, printed, _ = run("write", "two.fio", "t", "s")
    tell("a whole run", (status, printed), (0, f"run {run_of('s')}: 128 writes were done\n"))
    check("the check of a whole run", "two.fio", "t", "s", [])
    check("a full pass of a whole run", "two.fio", "t", "-", [], "--run", str(run_of("s")))
    shutil.copy("t", "earlier")
    tell("the next run", run("write", "two.fio", "t", "s")[0], 0)
    old, new = read("earlier"), read("t")
    check("the run before", "two.fio", "earlier", "s", list(range(64)), "--other-drive")
    harmed("one bit", lambda data: put(data, 5, bytes([new[5 * BLOCK + 777] ^ 4]), 777), [5])
    harmed("one sector", lambda data: put(data, 63, bytes(512), 3584), [63])
    harmed("one block", lambda data: put(data, 0, bytes(BLOCK)), [0])
    harmed("an old write back", lambda data: put(data, 9, old[9 * BLOCK : 10 * BLOCK]), [9])
    harmed("a block put elsewhere", lambda data: put(data, 5, new[3 * BLOCK : 4 * BLOCK]), [5])
    harmed("two swapped", lambda data: (put(data, 7, new[8 * BLOCK : 9 * BLOCK]), put(data, 8, new[7 * BLOCK : 8 * BLOCK])), [7, 8])
    harmed("torn", lambda data: put(data, 31, old[31 * BLOCK : 31 * BLOCK + 2048]), [31])
    harmed("all lost", lambda data: data.__setitem__(slice(0, len(data)), bytes(len(data))), list(range(64)))
    harmed("nothing", lambda data: None, [])


def lies():
    """Targets that lie, by what a log says that they did."""
    kinds = ("lost:5", "torn:7", "misdirected:6", "flipped:4", "late:9")
    for depth, ring, *options in ((1, ""), (8, ""), (64, ""), (64, "by a ring "), (64, "", "--queue", "5"), (64, "", "--cached")):
        job(f"lie{depth}.fio", writes=192, depth=depth)
        for lie in kinds:
            for file in ("lied", "ls", "log"):
                if os.path.exists(file):
                    os.remove(file)
            env = {"LD_PRELOAD": LIAR, "LIE": lie, "LIE_LOG": os.path.abspath("log"), "LIE_TARGET": "/lied", **({"LIE_RING": "1"} if ring else {})}
            tell(f"{lie} {ring}at depth {depth} is written", run("write", f"lie{depth}.fio", "lied", "ls", *options, env=env)[0], 0)
            rows = [line.split() for line in read("log").decode().splitlines()]
            last = {}
            for kind, block, number in rows:
                last[int(block)] = max(last.get(int(block), 0), int(number))
            data, run_number = read("lied"), run_of("ls")
            faults = [it for it in range(64) if data[it * BLOCK : (it + 1) * BLOCK] != stamp(run_number, 0, last[it], it)]
            tell(f"{lie} {ring}at depth {depth} lied", any(kind != "made" for kind, _, _ in rows) and len(rows) == 192, True)
            check(f"{lie} {ring}at depth {depth}: {len(faults)} faults", f"lie{depth}.fio", "lied", "ls", faults)


def unreadable():
    """One block that can't be read."""
    whole_run()
    env = {"LD_PRELOAD": LIAR, "LIE_TARGET": "/t", "LIE_UNREADABLE": str(37 * BLOCK + 100)}
    status, printed, said = run("check", "two.fio", "t", "s", env=env)
    tell("a block that can't be read is a fault, and costs no other", (status, printed), (1, report([], 63)))
    tell_has("its number is told", said, "block 37 can't be read: Input/output error")
    data = bytearray(read("t"))
    put(data, 12, bytes(512))
    write("harmed", bytes(data))
    status, printed, said = run("check", "two.fio", "harmed", "s", "--other-drive", env={**env, "LIE_TARGET": "/harmed"})
    tell("a fault before it", (status, printed), (1, report([12], 63)))
    write("short", read("t")[:20000])
    status, printed, said = run("check", "two.fio", "short", "s", "--cached", "--other-drive")
    tell("a target that ends early", (status, printed), (1, report([], 4)))
    tell_has("what is said of it", said, "it ends after 20000 bytes")
