"""Tests release/shim.c, which stands under each program of a release."""
import os
import re
import shutil
import subprocess

from clones import TOP, counts, skip, tell

FLAGS = "-std=c11 -O2 -fno-inline -Wall -Wextra -Wpedantic -Wconversion -Wshadow -Werror".split()


def tried(room, what, *words, runner=()):
    """Builds and runs the tests of the shim, and counts them."""
    built = subprocess.run([*words, *FLAGS, "-o", f"{room}/shim", f"{TOP}/release/shim_test.c"], capture_output=True, text=True)
    tell(f"{what}: it is built without a warning", (built.returncode, built.stderr), (0, ""))
    if built.returncode:
        return
    ran = subprocess.run([*runner, f"{room}/shim"], stdout=subprocess.PIPE, text=True)
    found = re.search(r"^(\d+) passed, (\d+) failed$", ran.stdout, re.M)
    tell(f"{what}: it counts", bool(found), True)
    for line in re.findall(r"^FAILED: .*$", ran.stdout, re.M):
        print(f"{line} ({what})", flush=True)
    if found:
        counts["passed"] += int(found[1])
        counts["failed"] += int(found[2])


def shim(room):
    """Each function of the shim does what its contract says, over each C library that is here."""
    tried(room, "glibc", "cc")
    tried(room, "what glibc has", "cc", "-DLACKS_GLIBC", "-DLACKS_FEATURES")
    if shutil.which("musl-gcc"):
        tried(room, "musl", "musl-gcc", "-static")
    else:
        skip("musl-gcc", "Debian's musl-tools isn't installed")
    if shutil.which("aarch64-linux-gnu-gcc") and shutil.which("qemu-aarch64-static"):
        tried(room, "aarch64", "aarch64-linux-gnu-gcc", "-static", runner=["qemu-aarch64-static"])
    else:
        skip("aarch64", "gcc-aarch64-linux-gnu or qemu-user-static isn't installed")
