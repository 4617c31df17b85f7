"""What the gate's parts may pass over, and where. A part that can't try something says so by a line
`SKIPPED: WORD: why`, and counts it: `N passed, M failed, K skipped`. What isn't listed here has to
be tried wherever it is, and so has what is listed, where its condition doesn't hold."""
import os
import re
import shutil
import subprocess

LINE = re.compile(r"SKIPPED: ([\w .-]+): .")


def lacks(*programs):
    """Returns whether one of these isn't installed."""
    return lambda: any(shutil.which(it) is None for it in programs)


def fails(*words):
    """Returns whether a command fails here."""
    return lambda: subprocess.run(words, stdin=subprocess.DEVNULL, stdout=subprocess.DEVNULL, stderr=subprocess.DEVNULL).returncode != 0


def mounts_nothing():
    return os.geteuid() != 0 or fails("unshare", "-m", "mount", "-t", "tmpfs", "none", "/mnt")()


def has_no_loop_device():
    return os.geteuid() != 0 or fails("losetup", "-f")()


def has_no_hosts():
    """Returns whether there can be no hosts of a test: no namespace of a network, or no wire to it."""
    return os.geteuid() != 0 or lacks("ip", "socat")() or not os.path.exists("/dev/net/tun") or fails("unshare", "-n", "true")()


def mounts_no_fuse():
    """Returns whether no file system can be mounted that a process serves."""
    mounts = "exec 3<>/dev/fuse && mount -i -t fuse -o fd=3,rootmode=40000,user_id=0,group_id=0 none /mnt"
    return os.geteuid() != 0 or fails("unshare", "-m", "sh", "-c", mounts)()


# By its word, where something may be skipped, in words and as a test.
MAY_BE = {
    "fio": ("where fio isn't installed", lacks("fio")),
    "rows of fio": ("where the fio that is installed is of no version whose rows are in examples/fio-cases", lambda: not lacks("fio")()),
    "make": ("where make isn't installed", lacks("make")),
    "socat": ("where socat isn't installed", lacks("socat")),
    "hosts": ("where no network namespaces can be made, or ip, socat or /dev/net/tun lack", has_no_hosts),
    "namespace": ("where no namespace of a user can be made", fails("unshare", "-m", "-r", "true")),
    "mounts": ("where nothing can be mounted", mounts_nothing),
    "FUSE": ("where no file system of a process can be mounted", mounts_no_fuse),
    "boot id": ("where the number of a machine's start can't be replaced", fails("unshare", "-m", "mount", "--bind", "/dev/null", "/proc/sys/kernel/random/boot_id")),
    "loop device": ("where there is no loop device", has_no_loop_device),
    "systemd-analyze": ("where systemd isn't installed", lacks("systemd-analyze")),
    "musl-gcc": ("where Debian's musl-tools isn't installed", lacks("musl-gcc")),
    "aarch64": ("where gcc-aarch64-linux-gnu or qemu-user-static isn't installed", lacks("aarch64-linux-gnu-gcc", "qemu-aarch64-static")),
    "dpkg-deb": ("where dpkg isn't installed", lacks("dpkg-deb")),
    "lintian": ("where it isn't installed", lacks("lintian")),
    "man": ("where man isn't installed", lacks("man")),
    "zsh": ("where it isn't installed", lacks("zsh")),
    "two processors": ("where a program may run on one alone", lambda: len(os.sched_getaffinity(0)) < 2),
    "harness": ("where harness/build has built none, which the gate has", lambda: False),
    "proved program": ("where ./build has built none, which the gate has", lambda: False),
    "mkfs.ext4": ("where mkfs.ext4 isn't installed", lacks("mkfs.ext4")),
}


def wrong_among(lines, told):
    """Returns what is wrong with what a part passed over: what may not be skipped here, and where
    it told another number than it named."""
    words = [found[1] for found in map(LINE.match, lines) if found]
    wrong = [f"{it} may be skipped {MAY_BE[it][0]}, and not here" if it in MAY_BE else f"{it} may be skipped nowhere" for it in words if it not in MAY_BE or not MAY_BE[it][1]()]
    return wrong + ([f"{told} are told as skipped, and {len(words)} are named"] if told != len(words) else [])
