"""What a fleet's server does of what its node says: a node for tests says it, and writes down what it
is told."""
import fcntl
import os
import select
import struct
import subprocess
import sys
import termios

from fleet_links import bare, door, frame
from serving import SERVER, TOP, Servers
from trying import BLOCK, HERE, LIAR, await_that, comes, read, run, skip, stamp, tell, write

sys.path.insert(0, f"{TOP}/harness/client")

from records import FRAME, SEND, enveloped, record

NODE = f"{HERE}/logging_node.py"
# What a server's node says and is told beside these.
DONE, FAILED, BLOCKS, UNREAD, ORDER, WANT = 3, 4, 5, 6, 67, 68


def name_of(run_number, number, job=0):
    """What names a write."""
    return struct.pack(">QIQ", run_number, job, number)


def order(run_number, number, block):
    return record(ORDER, name_of(run_number, number) + struct.pack(">I", block) + stamp(run_number, 0, number, block))


def want(first, count, attempt=5, job=0):
    return record(WANT, struct.pack(">QIIII", attempt, job, first, count, BLOCK))


def ordered(name, says, at=None, options=(), **env):
    """A server whose node says this."""
    write(f"{name}.says", says)
    servers = Servers(name, 0, jobs=1)
    servers.count, servers.running = 1, [None]
    servers.start(0, {"NODE": NODE, "LOG": f"{name}.log", "SAYS": f"{name}.says", **({"AT": str(at)} if at else {}), **env}, options)
    return servers


def told(name, count, *kinds):
    """The records of these kinds that the node was told, once they are so many."""
    def rows():
        lines = [line.partition(" ") for line in read(f"{name}.log").decode().splitlines(True) if line.endswith("\n")]
        return [(int(kind), bytes.fromhex(body)) for kind, _, body in lines if int(kind) in kinds]

    await_that(lambda: len(rows()) >= count, f"what the node of {name} is told")
    return rows()


def late_ends():
    """A write of a run that ends once the next run's orders are there is told as one of its own."""
    servers = ordered("late", order(7, 0, 0) + order(8, 1, 1), LD_PRELOAD=LIAR, LIE="slow:1", LIE_TARGET="late-0-0")
    tell("each end names the run that ordered it", told("late", 2, DONE, FAILED), [(DONE, name_of(7, 0)), (DONE, name_of(8, 1))])
    servers.cut()


def torn_blocks():
    """Blocks that a cut may tear, as the device writes fewer bytes whole, are written with --torn
    alone."""
    write("disk", bytes(1 << 20))
    device = subprocess.run(["losetup", "-f", "--show", "disk"], capture_output=True, text=True).stdout.strip() if os.geteuid() == 0 else ""
    if not device:
        return skip("loop device", "a device that writes 512 bytes whole")
    try:
        for options, due in (((), FAILED), (("--torn",), DONE)):
            Servers.places = [device]
            name = "torn" if options else "whole"
            servers = ordered(name, order(7, 0, 0), options=options)
            tell(f"a block of 4,096 bytes where 512 are written whole, {options}", told(name, 1, DONE, FAILED), [(due, name_of(7, 0))])
            tell(f"which is said, {options}", b"a cut may tear a block" in read(servers.said(0)), not options)
            servers.cut()
    finally:
        Servers.places = None
        subprocess.run(["losetup", "-d", device])


def short_reads():
    """A target that ends within a block: the whole ones are told, and of that one that it can't be
    read."""
    bytes_ = b"".join(stamp(7, 0, at, at) for at in range(2))
    write("short-0-0", bytes_ + stamp(7, 0, 2, 2)[:2048])
    servers = ordered("short", want(0, 3) + want(2, 1))
    name = lambda first: struct.pack(">QII", 5, 0, first)
    tell("whole blocks, and what is no block", told("short", 2, BLOCKS, UNREAD), [(BLOCKS, name(0) + bytes_), (UNREAD, name(2))])
    servers.cut()


def other_targets():
    """A server that had another target refuses this one."""
    servers = Servers("had", 1, jobs=1)
    servers.cut()
    write("letter", b"Dear all,\n" * 40000)
    status, _, said = run("0", "letter", "--note", servers.note(0), program=SERVER)
    tell("another target that holds other bytes", (status, "it isn't what job 0 had here" in said), (2, True))
    tell("is as it was", read("letter"), b"Dear all,\n" * 40000)
    servers.start(0)
    tell("its own target it takes as a cut has left it", servers.running[0].poll(), None)
    servers.cut()


def rest_of(link):
    """What still comes over a link, and whether it has ended then."""
    found = []
    link.settimeout(3)
    try:
        while data := link.recv(1 << 20):
            found.append(data)
    except TimeoutError:
        return b"".join(found), False
    return b"".join(found), True


def queued(link):
    """How many bytes wait to be read of a link."""
    return struct.unpack("i", fcntl.ioctl(link, termios.FIONREAD, bytes(4)))[0]


def is_hung_up(link):
    look = select.poll()
    look.register(link, select.POLLRDHUP)
    return bool(look.poll(0))


def stuck_links():
    """A link that takes nothing for five seconds is closed in the middle of a frame, and no other one
    follows on it."""
    large, small = bare(bytes(range(256)) * 32768), bare(b"small")
    servers = ordered("stuck", record(SEND, large) + record(SEND, small), FRAME)
    large = enveloped(large)
    with door("stuck-0.note.socket") as link:
        link.sendall(frame(b"any"))
        await_that(lambda: queued(link), "a part of a frame")
        tell("the link is closed", comes(lambda: is_hung_up(link)), True)
        data, is_closed = rest_of(link)
        tell("a part of a frame, and then the end", (data == large[: len(data)], 0 < len(data) < len(large), is_closed), (True, True, True))
    servers.cut()
