"""What is refused before the first write, where only failing writes or a harmed system would tell it
else; and what writes rest on, which is said and kept."""
import os
import subprocess

from failing import flags_of
from nights import CUT, rows_of
from trying import LIAR, QUIET, TARGET, job, read, run, skip, tell, tell_has, write
from witness import link, witness


def refused(what, words, part, **more):
    status, printed, said = run(*words, **more)
    tell(f"{what}: the status", (status, printed), (2, ""))
    tell_has(f"{what}: what is said", said, part)


def looked_at():
    """The guard looks where the run is to write: at its region's first and last mebibyte, and at blocks
    between them."""
    data = bytearray(16 << 20)
    for what, at, words in (
        ("data where the region begins", 4 << 20, ("--offset", str(4 << 20))),
        ("data where it ends", (4 << 20) + 63 * 8192, ("--offset", str(4 << 20), "--stride", "8192")),
        ("data at a block that lies apart", 63 * 65536 * 2, ("--stride", str(2 * 65536))),
    ):
        data[at : at + 9] = b"Dear all,"
        write("held", bytes(data))
        refused(what, ("write", "two.fio", "held", "hs", *words), "it holds other bytes")
        tell(f"{what}: it is as it was", read("held") == bytes(data), True)
        data[at : at + 9] = bytes(9)


def loop_device(*options):
    device = subprocess.run(["losetup", "-f", "--show", *options, "disk"], capture_output=True, text=True).stdout.strip() if os.geteuid() == 0 else ""
    if not device:
        skip("loop device", f"a device, {options}")
    return device


def unfit_targets():
    """A read-only device, a file below a loop device, blocks below a device's own, and a file in memory
    are refused before the first write."""
    write("disk", bytes(1 << 20))
    job("small.fio", blocks=64, block_size=512)
    for options, target, job_file, why in (
        (("-r",), None, "two.fio", "read-only"),
        ((), "disk", "two.fio", "a loop device lies over it"),
        (("--sector-size", "4096"), None, "small.fio", "it takes blocks of 4096 bytes"),
        ((), None, "two.fio", "take bs=512, or --torn, and --unit 512 for the check"),
    ):
        device = loop_device(*options)
        if device:
            status, _, said = run("write", job_file, target or device, "us")
            tell(f"{options}, {target or 'the device'}", (status, why.lower() in said.lower() or "permission denied" in said.lower()), (2, True))
            subprocess.run(["losetup", "-d", device])
    os.makedirs("memory", exist_ok=True)
    if os.geteuid() != 0 or subprocess.run(["mount", "-t", "tmpfs", "none", "memory"], **QUIET).returncode:
        return skip("mounts", "a file in memory: this machine mounts nothing")
    try:
        refused("a file in memory", ("write", "two.fio", "memory/t", "us"), "in memory")
        tell("with --cached", run("write", "two.fio", "memory/t", "us", "--cached")[0], 0)
    finally:
        subprocess.run(["umount", "memory"])


def ways():
    """What writes rest on is what was asked for, and is told and kept: what can't be had is refused."""
    env = {**os.environ, "LD_PRELOAD": LIAR, "LIE_TARGET": "/way", "LIE": "stalled:1"}
    for words, due in ((("--promise", "fua"), (True, True)), (("--promise", "through"), (True, False)), (("--promise", "flush", "--flush", "4"), (True, False))):
        ran = subprocess.Popen([TARGET, "write", "two.fio", "way", "ws", *words], env=env, **QUIET)
        tell(f"{words}: O_DIRECT, O_DSYNC", flags_of(ran.pid, "way"), due)
        ran.kill()
        ran.wait()
    for words, way in (
        (("--by", "threads"), "fua by threads"),
        (("--promise", "through", "--by", "threads"), "through by threads"),
        (("--flush", "4", "--by", "threads"), "flush by threads"),
        (("--cached",), "cached"),
    ):
        status, _, said = run("write", "two.fio", "way", "ws", *words)
        tell(f"{words}: what is said", (status, f"writes rest on this: {way}\n" in said), (0, True))
        tell(f"{words}: what is kept", f"\nway {way}\n".encode() in read("ws"), True)
    ring = {"LD_PRELOAD": LIAR, "LIE_TARGET": "/way", "LIE_RING": "1"}
    status, _, said = run("write", "two.fio", "way", "ws", "--by", "ring", env=ring)
    tell("by a ring, where there is one", (status, b"\nway fua by io_uring\n" in read("ws")), (0, True))
    status, _, said = run("write", "two.fio", "way", "ws", "--by", "ring", env={"LD_PRELOAD": LIAR})
    tell("and where there is none", (status, "the kernel gives no io_uring" in said), (2, True))
    for words, why in (
        (("--promise", "never"), "fua, flush or through"),
        (("--promise", "flush"), "flush wants --flush N"),
        (("--promise", "fua", "--flush", "4"), "flush wants --flush N"),
        (("--promise", "fua", "--cached"), "no drive promises anything"),
        (("--by", "hand"), "ring or threads"),
    ):
        refused(" ".join(words), ("write", "two.fio", "way", "ws", *words), why)
    status, _, said = witness("cycle", "long.fio", "told", *link("wt", "--promise", "through", "--by", "threads"), *CUT, "--cycles", "1", "--trust-off")
    tell("an agent's way", (status in (0, 3), [it["way"] for it in rows_of("told")], "rest on this: through by threads" in said), (True, ["through by threads"], True))
