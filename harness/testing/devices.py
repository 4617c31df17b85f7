"""A root without /dev/fd, file systems that are full, and devices, where this machine lets that be
tried."""
import os
import shutil
import subprocess

from trying import QUIET, TARGET, check, job, report, report_in, run, skip, tell, write


def no_dev_fd():
    """A root whose /dev has nothing but /dev/null, as that of a small virtual machine."""
    apart = ["unshare", "-m", "-r", "sh", "-c", 'mount -t tmpfs none /dev && : >/dev/null && [ ! -e /dev/fd ] && exec "$@"', "sh"]
    if subprocess.run([*apart, "true"], **QUIET).returncode != 0:
        return skip("namespace", "a root without /dev/fd: this machine gives no namespace")
    for words in (["write", "two.fio", "apart", "as"], ["check", "two.fio", "apart", "as"]):
        ran = subprocess.run([*apart, TARGET, *words], capture_output=True, text=True)
        tell(f"{words[0]} without /dev/fd", (ran.returncode, report_in(words[0], ran.stdout) == report([])), (0, words[0] == "check"))


def mounts():
    """A device that is mounted or too short, and a file system that is full, where this machine
    lets that be tried."""
    if os.geteuid() != 0:
        skip("mounts", "a file system that is full: for want of root")
        return skip("loop device", "devices: for want of root")
    os.makedirs("small", exist_ok=True)
    if subprocess.run(["mount", "-t", "tmpfs", "-o", "size=64k", "none", "small"], **QUIET).returncode == 0:
        try:
            status, _, said = run("write", "two.fio", "small/t", "fs", "--cached")
            tell("a full file system", (status, "No space left" in said), (2, True))
            status, _, said = run("write", "two.fio", "full", "small/s", "--cut", "touch cut-by-mistake")
            tell("a full disk for the state", (status, "No space left" in said, os.path.exists("cut-by-mistake")), (2, True, False))
        finally:
            subprocess.run(["umount", "small"])
    else:
        skip("mounts", "a file system that is full: this machine mounts nothing")
    devices()


def most_at_once(device, *options):
    """Writes a job of depth 32 to a device, and returns how many writes that had at once at most, of
    the moments that were looked at."""
    most, ran = 0, subprocess.Popen([TARGET, "write", "deep.fio", device, "ds", "--torn", "--yes", *options], **QUIET)
    while ran.poll() is None:
        with open(f"/sys/block/{os.path.basename(device)}/inflight", encoding="ascii") as it:
            most = max(most, int(it.read().split()[1]))
    tell(f"a job of depth 32, {options}: the status", ran.returncode, 0)
    check(f"a job of depth 32, {options}: the check", "deep.fio", device, "ds", [])
    return most


def queues(device):
    """How many writes a device has at once: with --queue so many, and else more."""
    job("deep.fio", writes=6_000, depth=32, more="x_window=64\n")
    tell("at most so many as --queue says", most_at_once(device, "--queue", "3") in (2, 3), True)
    tell("at most one", most_at_once(device, "--queue", "1"), 1)
    tell("behind a flush, too", most_at_once(device, "--queue", "4", "--flush", "6") in (2, 3, 4, 5), True)
    tell("more without --queue", most_at_once(device) > 8, True)


def devices():
    """Loop devices."""
    write("disk", bytes(1 << 20))
    device = subprocess.run(["losetup", "-f", "--show", "disk"], capture_output=True, text=True).stdout.strip()
    if not device:
        return skip("loop device", "devices: this machine gives none")
    try:
        tell("a device", run("write", "two.fio", device, "ds", "--torn")[0], 0)
        check("the check of a device", "two.fio", device, "ds", [])
        tell("a device that holds stamps", run("write", "two.fio", device, "ds", "--torn")[0], 0)
        queues(device)
        job("large.fio", blocks=512)
        status, _, said = run("write", "large.fio", device, "ds", "--torn")
        tell("a device that is too short", (status, "shorter than the job's region" in said), (2, True))
        with_a_file_system(device)
    finally:
        subprocess.run(["losetup", "-d", device])


def with_a_file_system(device):
    """A device with a file system, which may be mounted."""
    if not shutil.which("mkfs.ext4"):
        return skip("mkfs.ext4", "a device with a file system")
    tell("a file system is made", subprocess.run(["mkfs.ext4", "-qF", device], stderr=subprocess.DEVNULL).returncode, 0)
    status, _, said = run("write", "two.fio", device, "ds", "--torn")
    tell("a file system", (status, "--yes writes over them" in said), (2, True))
    os.makedirs("mounted", exist_ok=True)
    if subprocess.run(["mount", device, "mounted"], stderr=subprocess.DEVNULL).returncode != 0:
        return skip("mounts", "a device that is mounted: this machine mounts nothing")
    status, _, said = run("write", "two.fio", device, "ds", "--torn", "--yes")
    tell("a mounted one, with --yes", (status, "mounted, or in use" in said), (2, True))
    subprocess.run(["umount", "mounted"])
