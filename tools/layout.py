"""What is installed, and where: each file below the prefix, and of what it is made."""
import glob
import gzip
import os

from manuals import completions, manuals
from provenance import TOP, program_at

PROVED = ("fiocut", "drive", "fiocut_node", "fiocut_seen")
HARNESS = ("drive-target", "drive-agent", "drive-witness", "fleet-server")
# Scripts that have names of their own in bin.
SCRIPTS = {"fiocut-draw": "draw", "fiocut-from-fio": "from-fio", "fiocut-every-cut": "every-cut", "fiocut-judge": "seen"}
LIB, DOC = "lib/fiocut", "share/doc/fiocut"
# What of the repository these scripts and the programs' wrapper read, and what a reader reads.
READ = ("VERSION", "release/words.sh", "release/help.sh", "tools/words.py", "harness/fleet", "harness/client/*.py", "examples/judging/*.py", "examples/judging/wrong/*", "examples/worlds/*", "examples/scripts/*")
PAGES = ("README.md", "CHANGELOG.md", "SECURITY.md", "LICENSE-MIT", "LICENSE-APACHE", "VERSION", "docs/*.md", "examples/README.md", "harness/first.fio")
EXAMPLES = ("examples/*.fio", "examples/from/*.fio", "examples/worlds/*.world", "examples/live/*.live")


class NotBuilt(Exception):
    """Which program isn't built."""


class File:
    """A file that is installed: a copy of one, a text, or a link."""

    def __init__(self, source=None, mode=0o644, text=None, link=None):
        self.source, self.mode, self.text, self.link = source, mode, text, link

    def data(self):
        if self.text is not None:
            return self.text
        with open(self.source, "rb") as it:
            return it.read()


def sources(patterns):
    """Returns the files of these patterns, below the top."""
    found = [it for pattern in patterns for it in sorted(glob.glob(f"{TOP}/{pattern}")) if os.path.isfile(it)]
    return [os.path.relpath(it, TOP) for it in found]


def programs(folder, have_to_be_there):
    """Returns the programs, and what is told of those that are proved."""
    found = {}
    for name in (*PROVED, *HARNESS):
        own = program_at(name) if name in PROVED else f"{TOP}/harness/out/{name}"
        path = f"{folder}/{name}" if folder else own
        told = f"{folder}/{name}.built" if folder else f"{os.path.dirname(own)}/built"
        if have_to_be_there and not (os.access(path, os.X_OK) and (name in HARNESS or os.path.isfile(told))):
            raise NotBuilt(f"{path} isn't there")
        found[f"{LIB}/programs/{name}"] = File(path, 0o755)
        if name in PROVED:
            found[f"{LIB}/programs/{name}.built"] = File(told)
    return found


def unit(prefix):
    """Returns the unit of a fleet's servers, which names the programs where they are installed."""
    with open(f"{TOP}/harness/server/fleet-server@.service", encoding="utf-8") as it:
        text = it.read().replace("/usr/local/bin/fiocut_node", f"/usr/local/{LIB}/programs/fiocut_node")
    return text.replace("/usr/local/", f"{prefix.rstrip('/')}/").encode()


def packed(text):
    """Returns a man page as it is installed, which no time is part of."""
    return gzip.compress(text.encode(), 9, mtime=0)


def files_of(prefix, folder=None, have_to_be_there=True):
    """Returns all that is installed, by its path below the prefix."""
    found = programs(folder, have_to_be_there)
    found[f"{LIB}/run"] = File(f"{TOP}/release/run", 0o755)
    for name in PROVED:
        found[f"bin/{name}"] = File(link=f"../{LIB}/run")
    for name in HARNESS:
        found[f"bin/{name}"] = File(link=f"../{LIB}/programs/{name}")
    found["bin/fleet"] = File(link=f"../{LIB}/harness/fleet")
    for it in sources(READ):
        found[f"{LIB}/{it}"] = File(f"{TOP}/{it}", 0o755 if os.access(f"{TOP}/{it}", os.X_OK) else 0o644)
    for name, script in SCRIPTS.items():
        found[f"{LIB}/examples/{script}"] = File(f"{TOP}/examples/{script}", 0o755)
        found[f"bin/{name}"] = File(link=f"../{LIB}/examples/{script}")
    for it in sources((*PAGES, *EXAMPLES)):
        found[f"{DOC}/{it}"] = File(f"{TOP}/{it}")
    if os.path.isfile(f"{TOP}/release/RELEASE"):
        found[f"{DOC}/RELEASE"] = File(f"{TOP}/release/RELEASE")
    found["lib/systemd/system/fleet-server@.service"] = File(text=unit(prefix))
    found |= {f"share/man/man1/{name}.1.gz": File(text=packed(text)) for name, text in manuals().items()}
    found |= {f"share/{path}": File(text=text.encode()) for path, text in completions().items()}
    return found


def put(path, file):
    """Puts one file, or a link, in its place, of which no other program sees half."""
    os.makedirs(os.path.dirname(path), exist_ok=True)
    apart = f"{path}.new"
    if os.path.lexists(apart):
        os.remove(apart)
    if file.link:
        os.symlink(file.link, apart)
    else:
        with open(apart, "wb") as it:
            it.write(file.data())
        os.chmod(apart, file.mode)
    os.replace(apart, path)
