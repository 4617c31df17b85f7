"""What tools and tests know of the crates: which there are, what each stands on, how a copy of them
is made, and how Rattle's prover is called on one."""
import os
import re
import shutil
import subprocess

TOP = os.path.dirname(os.path.dirname(os.path.realpath(__file__)))
# What a verdict on a crate reads of it, and how much memory a check takes at most, in KiB, as
# measured.
TEXTS = ("src", "specs", "proofs")
CHECK = 3_700_000


def read(path):
    """Returns the text of a file."""
    with open(path, encoding="utf-8") as it:
        return it.read()


def lines_of(text):
    """Returns by crate the line of it in a crates.txt: what stands before the colon, and the
    libraries that it uses."""
    parts = [line.partition("#")[0].partition(":") for line in text.splitlines()]
    return {head.split()[0]: (head.split(), used.split()) for head, colon, used in parts if colon}


def with_those_below(names, lines):
    """Returns these crates and all crates of this repository that they stand on."""
    found, left = set(), [*names]
    while left:
        name = left.pop()
        if name in lines and name not in found:
            found.add(name)
            left += lines[name][1]
    return found


def copy_to(room, names, lines, parts=TEXTS):
    """Makes a folder that `rt ci` takes for a repository of these crates, with these parts of each."""
    os.makedirs(f"{room}/crates")
    shutil.copy2(f"{TOP}/HANDLES", room)
    with open(f"{room}/crates.txt", "w", encoding="utf-8") as it:
        it.writelines(f"{' '.join(head)}: {' '.join(used)}\n" for name, (head, used) in lines.items() if name in names)
    for name in names:
        for part in parts:
            at = f"{TOP}/crates/{name}/{part}"
            if os.path.isdir(at):
                shutil.copytree(at, f"{room}/crates/{name}/{part}")
            elif os.path.isfile(at):
                shutil.copy2(at, f"{room}/crates/{name}/{part}")


def beside():
    """Returns where large copies go: beside the checkout, or None, where that can't be written."""
    at = os.path.dirname(TOP)
    return at if os.access(at, os.W_OK) else None


def side_by_side(memory=CHECK):
    """Returns how many processes may run at once: one a processor, as many as there is memory for."""
    free = int(re.search(r"MemAvailable:\s+(\d+)", read("/proc/meminfo"))[1])
    return max(1, min(len(os.sched_getaffinity(0)), free // memory))


def lines_in(name):
    """Returns how many lines of code a crate has."""
    count = 0
    for at, _, files in os.walk(f"{TOP}/crates/{name}/src"):
        for file in files:
            with open(f"{at}/{file}", "rb") as it:
                count += it.read().count(b"\n")
    return count


def kit():
    """Returns the folder of Rattle's kit."""
    return os.path.dirname(subprocess.run(["rt", "doc"], stdout=subprocess.PIPE, text=True, check=True).stdout.strip())


def check_words(name, lines, room, at):
    """Returns the call of the prover that checks a crate, over the libraries that `rt ci` has left
    in a room: as `rt` calls it there, by one process."""
    used = lines[name][1]
    own = [it for it in used if it in lines]
    below = with_those_below(own, lines)
    rlibs = lambda it: f"{room}/crates/{it}/out/rlib"
    words = [f"{at}/bin/rattle", "check", "--crate-name", name]
    words += ["src/main.rt" if os.path.isfile(f"{TOP}/crates/{name}/src/main.rt") else "src/lib.rt"]
    words += [f"--extern={it}={at}/rlibs/{it}.rlib" for it in ["std", *used] if it not in own]
    words += [f"--extern={it}={rlibs(it)}/{it}.rlib" for it in own]
    words += [f"-Ldependency={at}/rlibs", *[f"-Ldependency={rlibs(it)}" for it in sorted(below)]]
    words += [f"--antt-project={at}/rattle/logic/antt-project.json", f"--logic-built={at}/logic_built"]
    return [*words, f"--links={name}=", "--jobs", "1"]
