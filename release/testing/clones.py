"""What the tests of the release share: a folder that looks like a clone, with a release of programs in
C, and what is counted."""
import hashlib
import lzma
import os
import platform
import shutil
import subprocess

TOP = os.path.dirname(os.path.dirname(os.path.dirname(os.path.realpath(__file__))))
PROGRAMS = ("fiocut", "drive", "fiocut_node", "fiocut_seen")
# A program as an object of the release is one: it wants what the shim has, says by whom it was made,
# its words, and what it reads, and refuses words as the program does that it stands for.
SOURCE = r"""
#include <stdio.h>
#include <string.h>
#include <unistd.h>
struct tried { _Bool ok; void *p; };
struct tried rattle_alloc(size_t, size_t);
size_t rattle_arg_count(void);
ssize_t rattle_arg(size_t, char *, size_t);
int main(void) {
    char *to = rattle_alloc(4096, 1).p;
    printf("%s\n", BY);
    for (size_t at = 1; at < rattle_arg_count(); at++) printf("word %.*s\n", (int)rattle_arg(at, to, 4096), to);
    for (ssize_t got; (got = read(0, to, 4096)) > 0;) fwrite(to, 1, (size_t)got, stdout);
    return 1;
}
"""
# How long a command is waited for, in seconds: a limit that only a hang reaches.
HANG = 1800
counts = {"passed": 0, "failed": 0, "skipped": 0}


def tell(what, got, due):
    """Counts a test, and says where what came isn't what was due."""
    counts["passed" if got == due else "failed"] += 1
    if got != due:
        print(f"FAILED: {what}: {got!r}, and not {due!r}", flush=True)


def tell_has(what, text, part):
    """Counts a test: whether a text has this part."""
    tell(what, part if part in text else text, part)


def skip(word, why):
    """Counts what can't be tried on this machine, by its word in tools/skips.py, and says why."""
    counts["skipped"] += 1
    print(f"SKIPPED: {word}: {why}", flush=True)


def write(path, text):
    os.makedirs(os.path.dirname(path), exist_ok=True)
    with open(path, "w", encoding="utf-8") as it:
        it.write(text)


def read(path):
    with open(path, encoding="utf-8") as it:
        return it.read()


def run(*words, at=None, **env):
    """Runs a command without the kit: its status, what it printed and what it said."""
    own = {**os.environ, "PATH": "/usr/local/sbin:/usr/sbin:/usr/bin:/sbin:/bin", **env}
    ran = subprocess.run(words, cwd=at, env=own, input="read\n", capture_output=True, text=True, errors="replace", timeout=HANG)
    return ran.returncode, ran.stdout, ran.stderr


def make_clone(room):
    """Makes a folder that looks like a clone: the commands at the top, the tools, and a crate each."""
    clone = f"{room}/clone"
    for it in ("tools", "release"):
        shutil.copytree(f"{TOP}/{it}", f"{clone}/{it}", ignore=shutil.ignore_patterns("out", "__pycache__", "must-fail", "testing", "RELEASE", "*.xz"))
    for it in ("fiocut", "build", "VERSION"):
        shutil.copy2(f"{TOP}/{it}", f"{clone}/{it}")
    lines = ["fc_base:\n", *(f"{it}: fc_base\n" for it in PROGRAMS)]
    write(f"{clone}/crates.txt", "".join(lines))
    write(f"{clone}/bench/libraries.txt", "")
    write(f"{clone}/harness/build", "#!/bin/sh\n")
    os.chmod(f"{clone}/harness/build", 0o755)
    write(f"{clone}/crates/fc_base/src/lib.rt", "// fc_base\n")
    for it in PROGRAMS:
        write(f"{clone}/crates/{it}/src/main.rt", f"// {it}\n")
    return clone


def object_of(room, by):
    """Returns the bytes of an object that says by whom it was made."""
    subprocess.run(["cc", "-O1", "-x", "c", f'-DBY="{by}"', "-c", "-o", f"{room}/{by}.o", "-"], input=SOURCE, text=True, check=True)
    with open(f"{room}/{by}.o", "rb") as it:
        return it.read()


def sum_of_sources(clone, program):
    """Returns the sum of a program's sources, as `sha256sum` has it."""
    found = subprocess.run(f"find crates.txt crates/{program}/src crates/fc_base/src -type f | LC_ALL=C sort | xargs sha256sum | sha256sum", shell=True, cwd=clone, stdout=subprocess.PIPE, text=True)
    return found.stdout.split()[0]


def make_release(room, clone, version="0.9.0"):
    """Gives a clone a release of its sources as they are."""
    target, lines = platform.machine(), [f"version {version}", "commit 0123456789abcdef", "kit planted-kit", "logic 0123"]
    for it in PROGRAMS:
        data = object_of(room, f"release-of-{it}")
        os.makedirs(f"{clone}/release/{target}", exist_ok=True)
        with lzma.open(f"{clone}/release/{target}/{it}.o.xz", "wb") as packed:
            packed.write(data)
        lines += [f"program {it}", f"sources {sum_of_sources(clone, it)}", "verdict logic=proved", f"object {target} {hashlib.sha256(data).hexdigest()}"]
    write(f"{clone}/release/RELEASE", "# A planted release.\n" + "\n".join(lines) + "\n")


def put_built(clone, name, text, **changed):
    """Puts a script in the place of a built program, with its provenance as ./build writes it, but for
    what is changed."""
    out = f"{clone}/crates/{name}/out"
    write(f"{out}/{name}", text)
    os.chmod(f"{out}/{name}", 0o755)
    told = {"program": hashlib.sha256(text.encode()).hexdigest(), "sources": sum_of_sources(clone, name), "made": "here planted-kit", "commit": "fedcba", **changed}
    of = ["crates.txt", f"crates/{name}/src", "crates/fc_base/src"]
    write(f"{out}/built", "".join(f"{word} {it}\n" for word, it in told.items()) + "".join(f"of {it}\n" for it in of))
