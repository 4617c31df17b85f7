"""Tests that what is current is known by sums, and not by times."""
import os
import shutil

from clones import make_clone, make_release, put_built, run, tell, tell_has, write

# In so many seconds a run by the kit that stands here has long ended.
LONG = 120
OWN = "#!/bin/sh\necho own \"$@\"\nexit 1\n"
# What stands for the kit's command: it tells that it was called.
KIT = "#!/bin/sh\ncase $1 in version) echo planted-kit ;; try) echo unproved; echo 'run=ended status=1 x' >&2 ;; esac\n"


def with_kit(room, clone):
    """Puts a kit's command on the PATH of calls, and returns what runs ./fiocut by it."""
    write(f"{room}/kit/rt", KIT)
    os.chmod(f"{room}/kit/rt", 0o755)
    return lambda *words: run(f"{clone}/fiocut", *words, PATH=f"{room}/kit:/usr/bin:/bin")


def current(room):
    """A program counts as current where its own sum and that of its sources are those of its
    provenance, and not by any time."""
    clone = make_clone(room)
    fiocut, source = with_kit(room, clone), f"{clone}/crates/fiocut/src/main.rt"
    put_built(clone, "fiocut", OWN)
    tell("what is built of the sources runs", fiocut("jobs")[:2], (1, "own jobs\n"))
    os.utime(source, (2**31, 2**31))
    tell("a source with a later time", fiocut("jobs")[:2], (1, "own jobs\n"))
    text = "// fiocut\n"
    write(source, "// changed\n")
    os.utime(source, (0, 0))
    tell("a changed source with an earlier time", fiocut("jobs")[1], "unproved\n")
    write(source, text)
    tell("a source changed and changed back", fiocut("jobs")[1], "own jobs\n")
    write(f"{clone}/crates/fc_base/src/more.rt", text)
    tell("a source that was added to a library", fiocut("jobs")[1], "unproved\n")
    os.remove(f"{clone}/crates/fc_base/src/more.rt")
    os.rename(f"{clone}/crates/fc_base/src/lib.rt", f"{room}/lib.rt")
    tell("a source that is gone", fiocut("jobs")[1], "unproved\n")
    os.rename(f"{room}/lib.rt", f"{clone}/crates/fc_base/src/lib.rt")
    shutil.copyfile("/bin/true", f"{clone}/crates/fiocut/out/fiocut")
    tell("another program in its place", fiocut("jobs")[1], "unproved\n")
    put_built(clone, "fiocut", OWN, program="0" * 64)
    tell("a provenance of another program", fiocut("jobs")[1], "unproved\n")


def moved(room):
    """A program that is copied with its provenance into another clone of the same sources is current
    there, for ./fiocut and for ./build."""
    clone, other = make_clone(room), make_clone(f"{room}/other")
    put_built(clone, "fiocut", OWN)
    shutil.copytree(f"{clone}/crates/fiocut/out", f"{other}/crates/fiocut/out", copy_function=shutil.copyfile)
    os.chmod(f"{other}/crates/fiocut/out/fiocut", 0o755)
    tell("a copied program runs", run(f"{other}/fiocut", "jobs")[:2], (1, "own jobs\n"))
    tell("./build has nothing to do", run(f"{other}/build", "fiocut"), (0, "", ""))
    write(f"{other}/crates/fiocut/src/main.rt", "// changed\n")
    status, _, said = run(f"{other}/build", "fiocut")
    tell("./build of a changed source, without the kit", status, 70)
    tell_has("./build says what is lacking", said, "rt, the command of Rattle's kit, is not on the PATH")


def unproved(room):
    """--unproved runs the sources as they are, whatever is built."""
    clone = make_clone(room)
    fiocut = with_kit(room, clone)
    put_built(clone, "fiocut", OWN)
    make_release(room, clone)
    status, printed, said = fiocut("--unproved", "jobs")
    tell("--unproved runs the sources", (status, printed), (1, "unproved\n"))
    tell_has("--unproved says what it does", said, "this run is unproved")
    tell("its clock ends with it, also where TERM is ignored", fiocut_read_to_its_end(room, clone), (0, "unproved\n"))
    tell("--unproved without the kit", run(f"{clone}/fiocut", "--unproved", "jobs")[:2], (70, ""))


def fiocut_read_to_its_end(room, clone):
    """What an unproved run prints and says, as who reads both gets it until nobody can write there any
    more: the status of that, and the last line."""
    command = f"env --ignore-signal=TERM {clone}/fiocut --unproved jobs 2>&1 | timeout {LONG} tail -n 1"
    return run("sh", "-c", f"{command}; exit $?", PATH=f"{room}/kit:/usr/bin:/bin")[:2]
