"""How the objects of a release are made: each program's, for each target, by Rattle's prover, which
makes one only of what it has proved."""
import os
import re
import subprocess
import sys
import time
from concurrent.futures import ThreadPoolExecutor

import crates
from provenance import TOP

PROGRAMS = ("fiocut", "drive", "fiocut_node", "fiocut_seen")
# The targets of a release, as it names them, and as Rattle does.
TARGETS = {"x86_64": "x86_64-unknown-linux-gnu", "aarch64": "aarch64-unknown-linux-gnu"}
# What `rt ci` reads of a crate: as ./test has it, so that what that has proved is taken from there.
OF_CRATE = (*crates.TEXTS, "stdin", "stdout", "args", "status", "data")


class NotMade(Exception):
    """Why there are no objects."""


def lines_of_list():
    """Returns the lines of crates.txt, by their crates."""
    return crates.lines_of(crates.read(f"{TOP}/crates.txt"))


def say(text):
    print(text, file=sys.stderr, flush=True)


def prove_all(room, jobs, anew):
    """Has `rt ci` prove the programs and the libraries below them in a copy: as it takes what it proved
    on this machine, or anew."""
    lines = lines_of_list()
    names = crates.with_those_below(PROGRAMS, lines)
    crates.copy_to(f"{room}/copy", [it for it in lines if it in names], lines, OF_CRATE)
    begun, own = time.time(), {**os.environ, "RT_JOBS": str(jobs)}
    ran = subprocess.run(["rt", "ci", *(["--anew"] if anew else [])], cwd=f"{room}/copy", env=own, stdin=subprocess.DEVNULL, stdout=subprocess.PIPE, stderr=subprocess.STDOUT, text=True, errors="replace")
    told = re.findall(r"^\d+ passed, \d+ failed$", ran.stdout, re.M)
    if ran.returncode or not told or not told[-1].endswith(" 0 failed"):
        raise NotMade(f"rt ci didn't prove all:\n{ran.stdout[-3000:]}")
    say(f"rt ci: {told[-1]}, after {time.time() - begun:.0f} s")


def make_object(room, name, target):
    """Has the prover prove a program once more, over the libraries that were proved in the copy, and make
    its object for a target. Returns its bytes and the prover's verdict."""
    at, path, begun = crates.kit(), f"{room}/{name}.{target}.o", time.time()
    words = crates.check_words(name, lines_of_list(), f"{room}/copy", at)
    words[1] = "build"
    words += ["--toolchain", f"{at}/toolchain", "--target", TARGETS[target], "-o", path]
    ran = subprocess.run(words, cwd=f"{room}/copy/crates/{name}", stdin=subprocess.DEVNULL, stdout=subprocess.PIPE, stderr=subprocess.STDOUT, text=True, errors="replace")
    verdicts = re.findall(r"^logic=proved .*$", ran.stdout, re.M)
    if ran.returncode or len(verdicts) != 1:
        raise NotMade(f"{name} for {target}: rattle build ended with status {ran.returncode}:\n{ran.stdout[-3000:]}")
    say(f"{name} for {target}: proved, after {time.time() - begun:.0f} s")
    with open(path, "rb") as it:
        return it.read(), verdicts[0]


def made(room, jobs, anew):
    """Returns the object and the verdict of each program, for each target, so many at a time."""
    prove_all(room, jobs, anew)
    with ThreadPoolExecutor(jobs) as pool:
        tasks = {(name, target): pool.submit(make_object, room, name, target) for name in PROGRAMS for target in TARGETS}
        return {of: it.result() for of, it in tasks.items()}


def link_by_kit(path, to):
    """Links an object as the kit links what it has proved for this machine."""
    at = crates.kit()
    words = [f"{at}/bin/rattle-link", "--target", TARGETS["x86_64"], "--toolchain", f"{at}/toolchain", "-o", to, path, f"{at}/c/libos_c.a", f"{at}/c/liblibc_c.a"]
    ran = subprocess.run(words, stdin=subprocess.DEVNULL, stdout=subprocess.PIPE, stderr=subprocess.STDOUT, text=True, errors="replace")
    if ran.returncode:
        raise NotMade(f"the kit can't link {os.path.basename(path)}: {ran.stdout[-600:]}")


def is_linked_as(path, program, room):
    """Returns whether the kit links an object to just this program."""
    link_by_kit(path, f"{room}/linked")
    with open(f"{room}/linked", "rb") as one, open(program, "rb") as other:
        return one.read() == other.read()
