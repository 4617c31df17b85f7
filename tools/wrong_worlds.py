"""Tells whether the bugs behind the wrong worlds of examples/judging/wrong are still there: the list
in that folder names for each output the edits that were planted in the program."""
import os

from crates import TOP, read
from edits import FOLDER

WORLDS = "examples/judging/wrong"


def replaced_by(text):
    """Returns what an edit beside the list replaces, in which file: the file, and the old text."""
    path, found = "", []
    for line in text.split("\n"):
        if line.startswith("file: "):
            path = line[6:].strip()
        elif line.startswith("old: "):
            found.append((path, line[5:]))
    return found


def fault_of(word, top=TOP):
    """Returns why an edit can't be planted any more, or None. A word CRATE/EDIT names one that
    tools/wrong-bodies tries, and EDIT.edit one beside the list."""
    crate, _, name = word.rpartition("/")
    if crate:
        at = f"crates/{crate}/{FOLDER}/{name}.edit"
        return None if os.path.isfile(f"{top}/{at}") else f"there is no {at}"
    at = f"{top}/{WORLDS}/{word}"
    if not word.endswith(".edit") or not os.path.isfile(at):
        return f"{WORLDS} has no edit {word}"
    pairs = replaced_by(read(at))
    for path, old in pairs:
        count = read(f"{top}/{path}").count(old) if os.path.isfile(f"{top}/{path}") else 0
        if count != 1:
            return f"{word}: {path} has this {count} times, and not once: {old.strip()}"
    return None if pairs else f"{word} replaces nothing"


def edits_in(text):
    """Returns the edits that the rows of a list name, each once."""
    rows = [line.split() for line in text.split("\n") if line and not line.startswith("#")]
    return sorted({word for row in rows for word in row[2:] if word != "changed"})


def look():
    """Returns how many edits of the list can still be planted, and why each other one can't."""
    words = edits_in(read(f"{TOP}/{WORLDS}/list"))
    faults = [fault for fault in map(fault_of, words) if fault]
    return len(words) - len(faults), faults
