"""Which drives a server's targets are: it keeps that, and writes over no other one that has come in
their place."""
import os
import subprocess

from serving import SERVER, Servers
from trying import BLOCK, comes, read, run, skip, tell, write

LETTER = b"Dear all,\n" * 40000
HARMED = "its bytes aren't those that were kept"


def serve(name, *places, options=()):
    """Starts a server over these, which ends where they are refused: its status, and what it said."""
    status, _, said = run("0", *places, "--note", f"{name}.note", *options, program=SERVER, env={"NODE": "/bin/true"})
    return status, said


def refusal(name, *places, options=()):
    """Why it refuses them, or nothing where it goes on to its node, which is none."""
    said = serve(name, *places, options=options)[1]
    return "" if "fiocut_node: it ended before it had opened the note" in said else said


def refused_for(part, name, *places):
    said = refusal(name, *places)
    return part if part in said else said or "it isn't refused"


def harmed(path):
    """Harms the first block of a file, in place, as a cut may."""
    with open(path, "r+b") as it:
        it.write(b"x" * BLOCK)


def kept_targets():
    """A server that is begun anew takes its own targets as a cut has left them, by whatever name; others,
    in another order or at other places, it refuses before it writes."""
    for it in "abc":
        write(f"k{it}", b"")
    tell("targets that hold nothing", refusal("kept", "ka", "kb@4096", "kc@0/8192"), "")
    harmed("ka")
    tell("what a cut has left of them", refusal("kept", "ka", "kb@4096", "kc@0/8192"), "")
    os.symlink("ka", "by-id")
    tell("by another name", refusal("kept", "by-id", "./kb@4096", "kc@0/8192"), "")
    tell("fewer of them", refusal("kept", "ka", "kb@4096"), "")
    tell("and one more, which is looked at", refusal("kept", "ka", "kb@4096", "kc@0/8192"), "")
    others = "it isn't what job 0 had here"
    tell("in another order", refused_for(others, "kept", "kb", "ka@4096", "kc@0/8192"), others)
    others = "it isn't what job 1 had here, which was at offset 4096 stride 0 of file"
    tell("at another place", refused_for(others, "kept", "ka", "kb@8192", "kc@0/8192"), others)
    others = "it isn't there, and job 1 had this: offset 4096"
    os.rename("kb", "kb.gone")
    tell("one that is gone", (refused_for(others, "kept", "ka", "kb@4096", "kc@0/8192"), os.path.exists("kb")), (others, False))
    os.rename("kb.gone", "kb")
    write("kept.note.targets", "ka@0/0\nkb@4096/0\nkc@0/8192\n")
    tell("what an earlier version kept is none", refused_for("it holds other bytes", "kept", "ka", "kb@4096", "kc@0/8192"), "it holds other bytes")
    tell("with --yes they are its own", (refusal("kept", "ka", "kb@4096", "kc@0/8192", options=["--yes"]), refusal("kept", "ka", "kb@4096", "kc@0/8192")), ("", ""))
    whole = read("kept.note.targets")
    for at in range(whole.index(b"sum"), len(whole), 7):
        for data, what in ((whole[:at] + bytes([whole[at] ^ 4]) + whole[at + 1 :], "changed"), (whole[:at], "cut")):
            if data.startswith(b"fleet-server targets 1\nsum "):
                write("kept.note.targets", data)
                tell(f"a file of them that is {what} at {at}", refused_for(HARMED, "kept", "ka", "kb@4096", "kc@0/8192"), HARMED)


def swapped_targets():
    """Two drives that have changed places, and another one in a drive's place, aren't written over; one
    whose first block a cut has harmed is taken."""
    for how, swapped in (("files", files), ("loop devices", loop_devices)):
        swapped(how)


def files(how):
    write("sda", b"")
    write("sdb", LETTER)
    told_of("swap", how, lambda: [os.rename(*it) for it in (("sda", "other"), ("sdb", "sda"), ("other", "sdb"))])


def told_of(name, how, swap, own="sda", other="sdb"):
    tell(f"{how}: its target", refusal(name, own), "")
    harmed(own)
    swap()
    status, said = serve(name, own)
    tell(f"{how}: the other one under its name is refused, and both are told", (status, said.count("offset 0 stride 0 of file")), (2, 2))
    tell(f"{how}: and is as it was", read(own)[: len(LETTER)], LETTER)
    swap()
    tell(f"{how}: once they are back the target is taken, harmed as it is", refusal(name, own), "")


def loop_devices(how):
    if os.geteuid() != 0 or subprocess.run(["losetup", "-f"], stdout=subprocess.DEVNULL, stderr=subprocess.DEVNULL).returncode:
        return skip("loop device", "two drives that change places")
    write("disk-a", bytes(1 << 20))
    write("disk-b", LETTER + bytes((1 << 20) - len(LETTER)))
    device = subprocess.run(["losetup", "-f", "--show", "disk-a"], capture_output=True, text=True, check=True).stdout.strip()
    disks = ["disk-b", "disk-a"]

    def swap():
        subprocess.run(["losetup", "-d", device], check=True)
        subprocess.run(["losetup", device, disks[0]], check=True)
        disks.reverse()

    try:
        told_of("loop", how, swap, own=device)
        untold(device)
    finally:
        subprocess.run(["losetup", "-d", device], check=True)


def untold(device):
    """A drive of which nothing but its size is told may be any: it is looked at each time."""
    hidden = f"mount -t tmpfs none /sys/dev/block && exec {SERVER} 0 {device} --note hidden.note"
    if subprocess.run(["unshare", "-m", "sh", "-c", "mount -t tmpfs none /sys/dev/block"], stderr=subprocess.DEVNULL).returncode:
        return skip("mounts", "a drive of which nothing is told")
    start = lambda: run("-m", "sh", "-c", hidden, program="unshare", env={"NODE": "/bin/true"})[2]
    with open(device, "r+b") as it:
        it.write(bytes(BLOCK))
    tell("a drive of which nothing is told", "it ended before it had opened the note" in start(), True)
    harmed(device)
    tell("is looked at again", "it holds other bytes" in start(), True)


def one_place():
    """Two jobs at one place are refused before anything is opened; side by side they are taken."""
    for places in (("o", "o"), ("o@4096", "o@4096/8192"), ("o", "p", "o@0")):
        said = refusal("one", *places)
        tell(f"{places}", ("both begin at byte" in said, os.path.exists("o")), (True, False))
    for places in (f"o@{(1 << 64) - 4096}", f"o@0/{1 << 50}"):
        tell(f"{places}", "no target reaches so far" in refusal("one", places), True)
    tell("side by side", refusal("one", "o@0/8192", "o@4096/8192"), "")


def planted_links():
    """What a server keeps goes through no link that another has put where it writes."""
    write("precious", "kept")
    servers = Servers("links", 0, jobs=1)
    servers.count, servers.running = 1, [None]
    for beside in ("targets.new", "new", "lock"): # (in the order in which it writes them)
        link = f"links-0.note.{beside}"
        if os.path.exists(link):
            os.remove(link)
        os.symlink("precious", link)
        servers.start(0, wait=False)
        comes(lambda: servers.running[0].poll() is not None or os.path.exists("links-0.note.socket"))
        tell(f"a link in the place of .{beside}", (servers.running[0].poll(), read("precious"), os.path.islink(link)), (2, b"kept", True))
        servers.kill(0)
        os.remove(link)
    servers.start(0)
    tell("and without one", servers.running[0].poll(), None)
    servers.cut()
