"""Stacks that need no virtual machine: a disk, and a file system, whose power is cut by killing the process
that serves them by FUSE (losing_fs.c). Each is cut several times by a witness: one that keeps what it was
asked to keep has no fault, and one that lies has some behind each cut."""
import losing
from losing import MOUNTED
from nights import last_line, rows_of
from trying import BLOCK, job, tell, tell_has
from witness import KILL, link, until_told, witness

CUTS = 4
# Who is cut, and what shows it: the disk alone, whose writes fail then; or all, by the word of --off.
ALONE, ALL = ("fall", losing.CUT, "--drive-only"), ("word", f"{KILL}; {losing.CUT}", "--trust-off")


def try_stack(name, who, target, options=(), lies=(), kinds=()):
    """Cuts a stack several times, and tells whether that comes to what is due: faults behind each cut, all
    of these kinds, or none. Where a write is lost its block holds what an earlier run wrote, if any did."""
    shown, off, way = who
    losing.cut(*lies)
    cuts = ("--off", f"{until_told()}; {off}", "--on", losing.give_back(*lies), way, "--cycles", f"{CUTS}")
    status, printed, _ = witness("cycle", "here.fio", name, *link(target, *options), *cuts, "--every", "0.1..0.3", "--seed", "7", "--keep-going")
    rows = rows_of(name)
    tell(f"{name}: the status, and what showed each cut", (status, [it["cut"] for it in rows]), (1 if kinds else 0, [shown] * CUTS))
    tell(f"{name}: each cut had something to find", [it["checked"] > 0 and it["told"] > 0 for it in rows], [True] * CUTS)
    tell(f"{name}: cuts with faults", [it["faults"] > 0 for it in rows], [bool(kinds)] * CUTS)
    found = {kind for it in rows for kind in it["kinds"]} - {"at-rest"}
    tell(f"{name}: their kinds", (sorted(found - {*kinds}), bool(found)), ([], bool(kinds)))
    tell_has(f"{name}: what it comes to", last_line(printed) if kinds else printed, "faults: " if kinds else f", 0 faults, 0 lost at rest; {CUTS} cuts")


def disks_here():
    """The stacks `fuse-disk`, written with O_DSYNC, and `fuse-disk-flush`, by flushes: a disk that loses
    what it wasn't asked to keep; and `fuse-disk-lies`, which loses what it was."""
    job("here.fio", writes=1_000_000)
    if losing.begin("stacks of a disk"):
        losing.make_disk("disk", 64 * BLOCK)
        try_stack("fuse-disk", ALONE, f"{MOUNTED}/disk")
        try_stack("fuse-disk-flush", ALONE, f"{MOUNTED}/disk", ("--flush", "4"))
        try_stack("fuse-disk-lies", ALONE, f"{MOUNTED}/disk", lies=["files"], kinds=["other-run", "unwritten"])


def files_here():
    """The stacks `fuse-files`, which keeps a file's bytes at its fsync, and its name at that of the folder;
    `fuse-files-early`, where both may stay before that; and three that lose what an fsync was to keep."""
    job("here.fio", writes=1_000_000)
    if losing.begin("stacks of a file system"):
        try_stack("fuse-files", ALL, MOUNTED, ["--files"])
        try_stack("fuse-files-early", ALL, MOUNTED, ["--files"], ["early"])
        for lie, kinds in (("names", ["other-run", "unwritten"]), ("files", ["unread"]), ("halves", ["torn"])):
            try_stack(f"fuse-files-{lie}", ALL, MOUNTED, ["--files"], [lie], kinds)
