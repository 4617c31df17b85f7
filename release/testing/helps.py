"""Tests that each command here answers --help and --version, and a word that it doesn't take, and does
nothing else."""
import os
import shutil
import subprocess

from clones import TOP, read, run, tell, tell_has

# What runs as another command, stands for one in tests, or is installed under other names, is none.
NONE = (".ci/run", "harness/testing/", "release/run")
# What is handed on to another program takes any word but an option.
STRANGE = "--frob"


def commands():
    """Returns all commands of the repository."""
    listed = subprocess.run(["git", "ls-files", "-cos", "--exclude-standard"], cwd=TOP, stdout=subprocess.PIPE, text=True, check=True).stdout
    names = {line.split("\t")[-1] for line in listed.splitlines()}
    return sorted(it for it in names if os.access(f"{TOP}/{it}", os.X_OK) and os.path.isfile(f"{TOP}/{it}") and not it.startswith(NONE))


def copied(room):
    """Copies the repository but for its crates, and returns where it is."""
    listed = subprocess.run(["git", "ls-files", "-co", "--exclude-standard", "--", ":!crates", ":!bench"], cwd=TOP, stdout=subprocess.PIPE, text=True, check=True).stdout
    for it in listed.splitlines():
        if os.path.lexists(f"{TOP}/{it}"):
            os.makedirs(os.path.dirname(f"{room}/copy/{it}"), exist_ok=True)
            shutil.copy2(f"{TOP}/{it}", f"{room}/copy/{it}", follow_symlinks=False)
    return f"{room}/copy"


def listing(folder):
    """Returns what tells whether a file was changed, made or removed."""
    return {f"{at}/{it}": os.lstat(f"{at}/{it}").st_mtime_ns for at, _, names in os.walk(folder) for it in names}


def helps(room):
    """Each command answers these words, from another folder, and leaves all as it was."""
    top, version = copied(room), read(f"{TOP}/VERSION").strip()
    os.makedirs(f"{room}/elsewhere")
    before = listing(room)
    for it in commands():
        command, name = f"{top}/{it}", os.path.basename(it)
        for word in ("--help", "-h"):
            status, printed, said = run(command, word, at=f"{room}/elsewhere")
            tell(f"{it} {word}: its status, and what is said", (status, said), (0, ""))
            tell(f"{it} {word}: it tells what the command is", len(printed) > 100 and name in printed, True)
        status, printed, said = run(command, "--version", at=f"{room}/elsewhere")
        tell(f"{it} --version: its status, and what is said", (status, said), (0, ""))
        tell_has(f"{it} --version: it names the version", printed, version)
        tell_has(f"{it} --version: it tells whether it is proved", printed, "proved")
        tell(f"{it}: all is as it was", listing(room) == before, True)
        before = listing(room)


def strange_words(room):
    """Each command says which word is wrong, and how it is called, with status 2, and does nothing."""
    top = copied(room)
    os.makedirs(f"{room}/elsewhere")
    before = listing(room)
    for it in commands():
        if it == "harness/build":
            continue # (flags of the compiler are its words)
        status, printed, said = run(f"{top}/{it}", STRANGE, at=f"{room}/elsewhere")
        tell(f"{it} {STRANGE}: its status", status, 2)
        tell_has(f"{it} {STRANGE}: which word is wrong", said, STRANGE)
        tell(f"{it} {STRANGE}: how it is called", len(said) > 100 and os.path.basename(it) in said, True)
        tell(f"{it} {STRANGE}: nothing else is printed", printed, "bad command\n" if it == "fiocut" else "")
        tell(f"{it} {STRANGE}: all is as it was", listing(room) == before, True)
        before = listing(room)
