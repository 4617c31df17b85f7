"""The release's objects: release/ has of each program the object file in which its proof ended, one
for each kind of processor, packed by xz. A C compiler links it with release/shim.c, which has what
Rattle's kit gives beside a C library.

release/RELEASE tells of which commit they are, by which kit they were proved, and of each program
the sum of the sources, the prover's verdict, and the sum of each object."""
import hashlib
import lzma
import os
import platform
import shutil
import subprocess
import sys
import tempfile
import time

from provenance import TOP, put, sources, sum_of, sum_of_sources, write_whole

FOLDER = f"{TOP}/release"
OUT = f"{FOLDER}/out"
# Where the words of the command line are kept before the program begins: see shim.c.
FLAGS = ("-std=c11", "-O2", "-Wl,--wrap=main", "-Wl,--gc-sections", "-pthread")


class Refused(Exception):
    """Why there is no program of the release."""


def release():
    """Returns what RELEASE tells: its words with what stands behind them, and of each program such, of
    its objects by their targets. Without that file there is nothing."""
    told = {"programs": {}}
    if not os.path.isfile(f"{FOLDER}/RELEASE"):
        return told
    with open(f"{FOLDER}/RELEASE", encoding="utf-8") as it:
        lines = [line.rstrip("\n").partition(" ") for line in it if line.strip() and not line.startswith("#")]
    of = told
    for word, _, text in lines:
        if word == "program":
            of = told["programs"][text] = {"objects": {}}
        elif word == "object":
            target, _, sum = text.partition(" ")
            of["objects"][target] = sum
        else:
            of[word] = text
    return told


def target():
    """Returns the kind of processor of this machine, as the release names it."""
    return platform.machine()


def is_there(program, of=None):
    """Returns whether the release has an object of a program for this machine, and a compiler is there."""
    return shutil.which("cc") is not None and (of or target()) in release()["programs"].get(program, {"objects": {}})["objects"]


def lacking(program):
    """Says why a program can't be linked of the release."""
    told = release()
    if program not in told["programs"]:
        return f"release/ has no object of {program}"
    if target() not in told["programs"][program]["objects"]:
        return f"release/ has no object of {program} for {target()}"
    return "there is no C compiler, cc"


def is_of_sources(program):
    """Returns whether the sources of a program are those that the release is made of."""
    told = release()["programs"].get(program, {})
    return "sources" in told and told["sources"] == sum_of_sources(sources([program]))


def write_object(program, of, path):
    """Unpacks the object of a program for a target, and refuses one that isn't what RELEASE tells."""
    packed, due = f"{FOLDER}/{of}/{program}.o.xz", release()["programs"][program]["objects"][of]
    try:
        with lzma.open(packed) as it:
            data = it.read()
    except (OSError, EOFError, lzma.LZMAError) as why:
        raise Refused(f"{os.path.relpath(packed, TOP)} can't be unpacked: {why}") from None
    if hashlib.sha256(data).hexdigest() != due:
        raise Refused(f"{os.path.relpath(packed, TOP)} is harmed: its sum isn't the one in release/RELEASE")
    with open(path, "wb") as it:
        it.write(data)


def link(program, to, of=None, compiler=("cc",), more=()):
    """Links a program of the release: for a target, by a compiler for that."""
    with tempfile.TemporaryDirectory(prefix="link-") as room:
        write_object(program, of or target(), f"{room}/{program}.o")
        words = [*compiler, *FLAGS, *more, "-o", to, f"{room}/{program}.o", f"{FOLDER}/shim.c"]
        ran = subprocess.run(words, stdin=subprocess.DEVNULL, stdout=subprocess.PIPE, stderr=subprocess.STDOUT, text=True, errors="replace")
    if ran.returncode:
        raise Refused(f"{program} can't be linked: {ran.stdout.strip()[-600:]}")


def say_linked(program, begun, is_same):
    """Says what was linked."""
    told = release()
    print(f"build: {program} is linked, in {time.time() - begun:.1f} s. Proved: release {told['version']}, commit {told['commit'][:12]}", file=sys.stderr)
    if not is_same:
        print(f"build: the sources of {program} are others than those of that release", file=sys.stderr, flush=True)


def put_released(program):
    """Links a program of the release, and puts it where ./build puts those that it has proved."""
    begun, told = time.time(), release()
    with tempfile.TemporaryDirectory(prefix="link-") as room:
        link(program, f"{room}/{program}")
        put(program, f"{room}/{program}", f"release {told['version']}", sources([program]), told["programs"][program]["sources"], told["commit"])
    say_linked(program, begun, is_of_sources(program))


def kept(program):
    """Links a program of the release beside those that are built, unless it is there, and returns
    where it stands."""
    path, told = f"{OUT}/{program}", release()["programs"][program]["objects"][target()]
    tells = lambda: f"program {sum_of(path)}\nobject {told}\n"
    if os.access(path, os.X_OK) and os.path.isfile(f"{path}.built"):
        with open(f"{path}.built", encoding="utf-8") as it:
            if it.read() == tells():
                return path
    begun = time.time()
    os.makedirs(OUT, exist_ok=True)
    link(program, f"{path}.{os.getpid()}.new")
    os.replace(f"{path}.{os.getpid()}.new", path)
    write_whole(f"{path}.built", tells().encode())
    say_linked(program, begun, False)
    return path


def print_released(programs):
    """Links programs of the release, prints where each stands, and returns the status. Where the
    sources are the release's, that is where ./build puts them."""
    for it in programs:
        if not is_there(it):
            raise Refused(lacking(it))
        if is_of_sources(it):
            put_released(it)
        print(f"{TOP}/crates/{it}/out/{it}" if is_of_sources(it) else kept(it))
    return 0
