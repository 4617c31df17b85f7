"""Tests what ./fiocut answers before the program is begun."""
import os
import re
import subprocess

from clones import TOP, make_clone, make_release, put_built, read, run, skip, tell, tell_has, write
from sums import OWN

# Words, which of them is told as wrong, and why.
WRONG = [
    ("world FILE", "fiocut: FILE: world takes no word: it reads the script on standard input, as fiocut world < SCRIPT.world"),
    ("jobs FILE", "fiocut: FILE: jobs takes no word: it reads the job file on standard input, as fiocut jobs < FILE.fio"),
    ("-v", "fiocut: -v: there is no such command"),
    ("help", "fiocut: help: there is no such command"),
    ("jobs --help", "fiocut: --help: jobs takes no word: it reads the job file on standard input, as fiocut jobs < FILE.fio"),
    ("live 9 1 path", "fiocut: 9: SERVERS is 1 to 8"),
    ("live 1 17 path", "fiocut: 17: WORKERS is 1 to 16"),
    ("live 1 x path", "fiocut: x: WORKERS is a number, 1 to 16"),
    ("live 1 1 path more", "fiocut: more: nothing stands behind PATH: the text is read on standard input"),
    ("live 1", "fiocut: live: it wants SERVERS, WORKERS and PATH"),
]


def wrong_words(room):
    """A wrong call says which word is wrong, and how it is called, with status 2, and begins nothing."""
    clone = make_clone(room)
    put_built(clone, "fiocut", OWN)
    usage = run(f"{clone}/fiocut", "--help")
    tell("--help: its status, and nothing is said", usage[::2], (0, ""))
    for words, due in WRONG:
        status, printed, said = run(f"{clone}/fiocut", *words.split())
        tell(f"{words}: its status, and what is printed", (status, printed), (2, "bad command\n"))
        tell(f"{words}: what is said", said, f"{due}\n{usage[1]}")
    tell("without a word", run(f"{clone}/fiocut"), (2, "bad command\n", usage[1]))
    tell("words that are taken", [run(f"{clone}/fiocut", *it.split())[1] for it in ("world", "live +8 016 a")], ["own world\n", "own live +8 016 a\n"])


def answers_alike(room):
    """The words that ./fiocut refuses are those that the proved program refuses."""
    program = os.environ.get("FIOCUT", f"{TOP}/crates/fiocut/out/fiocut")
    if not os.access(program, os.X_OK) or open(program, "rb").read(4) != b"\x7fELF":
        return skip("proved program", "./build hasn't built fiocut")
    clone = make_clone(room)
    put_built(clone, "fiocut", OWN)
    rows = re.findall(r'&\["fiocut"([^\]]*)\]', read(f"{TOP}/crates/live_tests/src/tests/subcommands/words.rt"))
    tell("there are rows of words", len(rows) > 30, True)
    for words in [re.findall(r'"([^"]*)"', it) for it in rows]:
        if words[:1] in (["--help"], ["-h"], ["--version"]):
            continue
        ran = subprocess.run([program, *words], stdin=subprocess.DEVNULL, stdout=subprocess.PIPE, text=True)
        tell(f"{words}: whether it is a bad command", run(f"{clone}/fiocut", *words)[1] == "bad command\n", ran.stdout == "bad command\n")


def version_told(room):
    """--version tells which program runs, of which commit, and whether it is proved."""
    clone = make_clone(room)
    version = read(f"{TOP}/VERSION").strip()
    lines = lambda: run(f"{clone}/fiocut", "--version")[1].splitlines()
    tell("--version: nothing is built", lines()[:1] + lines()[-1:], [f"fiocut {version}", "unproved"])
    put_built(clone, "fiocut", OWN)
    path = f"{clone}/crates/fiocut/out/fiocut"
    tell("--version: what was proved here", lines(), [f"fiocut {version}", f"program {path}", "commit fedcba", "proved: here planted-kit"])
    write(path, "#!/bin/sh\necho other\n")
    tell("--version: another program in its place", lines()[-1:], ["unproved"])
    make_release(room, clone)
    tell("--version: the release's", lines(), [f"fiocut {version}", f"program {path}", "commit 0123456789abcdef", "proved: release 0.9.0"])
    write(f"{clone}/crates/fiocut/src/main.rt", "// changed\n")
    tell("--version: the release's, of other sources", lines()[1:], [f"program {clone}/release/out/fiocut", "commit 0123456789abcdef", "proved: release 0.9.0, and the sources are others than its own"])
