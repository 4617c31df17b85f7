"""Tests what is linked of a release."""
import lzma
import os
import platform
import shutil
import subprocess

from clones import make_clone, make_release, put_built, read, run, tell, tell_has, write
from sums import OWN, with_kit


def linked(room):
    """Where the sources are those of the release, its program is linked by cc, once, without the kit and
    with it, and answers as a program that was built."""
    clone = make_clone(room)
    make_release(room, clone)
    status, printed, said = run(f"{clone}/fiocut", "jobs")
    tell("the release's program answers, with its words and its input", (status, printed), (1, "release-of-fiocut\nword jobs\nread\n"))
    tell_has("it is said that it is linked, and of which release", said, "Proved: release 0.9.0, commit 0123456789ab\n")
    tell("the sources are not told as others", "others" in said, False)
    tell("the second time nothing is linked", run(f"{clone}/fiocut", "jobs"), (1, printed, ""))
    tell("without a word behind the name of a link", run(f"{clone}/crates/fiocut/out/fiocut", "a", "")[1], "release-of-fiocut\nword a\nword \nread\n")
    tell("./build links the others", run(f"{clone}/build", "drive", "fiocut_node", "fiocut_seen", "fiocut")[:2], (0, ""))
    for it in ("drive", "fiocut_node", "fiocut_seen"):
        tell(f"./build links {it}", run(f"{clone}/crates/{it}/out/{it}")[1], f"release-of-{it}\nread\n")
    tell_has("its provenance", read(f"{clone}/crates/drive/out/built"), "\nmade release 0.9.0\ncommit 0123456789abcdef\nof crates.txt\n")
    shutil.rmtree(f"{clone}/crates/fiocut/out")
    tell("with the kit the release's program answers, too", with_kit(room, clone)("jobs")[1], printed)
    put_built(clone, "fiocut", OWN)
    tell("what was proved here goes before the release", run(f"{clone}/fiocut", "jobs")[1], "own jobs\n")


def newer(room):
    """Where the sources are others than those of the release, its program answers, says so, and takes no
    place of one that was built."""
    clone = make_clone(room)
    make_release(room, clone)
    put_built(clone, "fiocut", OWN)
    write(f"{clone}/crates/fiocut/src/main.rt", "// changed\n")
    status, printed, said = run(f"{clone}/fiocut", "jobs")
    tell("the release's program answers", (status, printed), (1, "release-of-fiocut\nword jobs\nread\n"))
    tell_has("it is said that the sources are others", said, "the sources are others than those of release 0.9.0")
    tell("that is said each time", "others than those of release" in run(f"{clone}/fiocut", "jobs")[2], True)
    write(f"{clone}/crates/fiocut/src/main.rt", "// fiocut\n")
    tell("what was built before is there still", run(f"{clone}/fiocut", "jobs")[1], "own jobs\n")
    write(f"{clone}/crates/drive/src/main.rt", "// changed\n")
    said = run(f"{clone}/build", "drive")[2]
    tell_has("./build without the kit says that the sources are others", said, "the sources of drive are others than those of that release")
    tell("it builds the release's all the same", run(f"{clone}/crates/drive/out/drive")[1], "release-of-drive\nread\n")
    shutil.copyfile("/bin/true", f"{clone}/release/out/fiocut")
    write(f"{clone}/crates/fiocut/src/main.rt", "// changed\n")
    tell("another program in the place of what was linked", run(f"{clone}/fiocut", "jobs")[1], printed)


def harmed(room):
    """An object that isn't the release's is refused, by its sum."""
    clone = make_clone(room)
    make_release(room, clone)
    path = f"{clone}/release/{platform.machine()}/fiocut.o.xz"
    with lzma.open(path) as it:
        data = it.read()
    at = data.index(b"release-of-fiocut")
    with lzma.open(path, "wb") as it:
        it.write(data[:at] + b"R" + data[at + 1 :])
    status, printed, said = run(f"{clone}/build", "fiocut")
    tell("a harmed object isn't linked", (status, printed, os.path.exists(f"{clone}/crates/fiocut/out/fiocut")), (70, "", False))
    tell_has("it is refused by its sum", said, "fiocut.o.xz is harmed: its sum isn't the one in release/RELEASE")
    tell("./fiocut doesn't run it", run(f"{clone}/fiocut", "jobs")[:2], (70, ""))
    with open(path, "wb") as it:
        it.write(b"no such packing")
    tell_has("what can't be unpacked is refused", run(f"{clone}/build", "fiocut")[2], "fiocut.o.xz can't be unpacked")


def without_a_compiler(room):
    """Without a C compiler, the kit and a built program it is said what is lacking."""
    clone = make_clone(room)
    make_release(room, clone)
    os.makedirs(f"{room}/bin")
    for it in ("python3", "sh", "dirname", "readlink", "sed", "cut", "sha256sum", "find", "sort", "xargs", "cat", "env"):
        os.symlink(shutil.which(it), f"{room}/bin/{it}")
    status, printed, said = run(f"{clone}/fiocut", "jobs", PATH=f"{room}/bin")
    tell("there is no answer", (status, printed), (70, ""))
    tell_has("it is said that there is no compiler", said, "there is no C compiler, cc")
    tell_has("it is said that there is no kit", said, "rt, the command of Rattle's kit, on the PATH")
