"""The file system of the tests that loses at a cut what it wasn't asked to keep (losing_fs.c): how it is
mounted, and how a witness cuts it, by killing its process."""
import ctypes
import os
import shlex
import signal
import subprocess

from trying import HANG, LOSING, read, skip, write

MOUNTED, KEPT, NUMBER, SERVES = "mounted", "kept-by-it", "losing.number", "serves"
# From <sched.h> and <sys/mount.h>.
CLONE_NEWNS, MS_REC, MS_PRIVATE = 0x20000, 0x4000, 1 << 18
CUT = f"kill -KILL $(cat {NUMBER})"


def give_back(*lies):
    """A command that mounts it anew over what the cut has left, and lies so from now on."""
    words = " ".join(map(shlex.quote, (LOSING, MOUNTED, KEPT, *lies)))
    return f"umount -l {MOUNTED} 2>/dev/null; rm -f {SERVES}; {words} >{SERVES} 2>&1 </dev/null & echo $! >{NUMBER}; i=0; until grep -qs . {SERVES} || [ $((i += 1)) -gt {10 * HANG} ]; do sleep 0.05; done; grep -q ^serves {SERVES}"


def begin(what, *lies):
    """Mounts it for this part alone, which has a process of its own: with that all ends. Returns whether
    it is there; where it can't be had on this machine, that is told."""
    libc = ctypes.CDLL(None, use_errno=True)
    is_apart = os.geteuid() == 0 and libc.unshare(CLONE_NEWNS) == 0 and libc.mount(b"none", b"/", None, MS_REC | MS_PRIVATE, None) == 0
    os.makedirs(MOUNTED, exist_ok=True)
    if not is_apart or subprocess.run(["sh", "-c", give_back(*lies)]).returncode != 0:
        skip("FUSE", f"{what}: this machine mounts none")
        return False
    return True


def cut(*lies):
    """Cuts its power and gives that back: then it lies so."""
    os.kill(int(read(NUMBER)), signal.SIGKILL)
    subprocess.run(["sh", "-c", give_back(*lies)], check=True)


def make_disk(name, size):
    """Makes a file in it that no cut takes away: a disk that holds nothing."""
    write(f"{MOUNTED}/{name}", bytes(size))
    for it in (f"{MOUNTED}/{name}", MOUNTED):
        fd = os.open(it, os.O_RDONLY)
        os.fsync(fd)
        os.close(fd)
