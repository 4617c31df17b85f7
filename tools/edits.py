"""Reads wrong bodies: what an edit replaces, whether it can be applied, and which function it
changes, by the name that Rattle's prover has for that."""
import os
import re
from dataclasses import dataclass

from crates import TOP, read

# Where a crate has its wrong bodies, and where those stand that are harmless, to test what tries them.
FOLDER, PLANTED = "must-fail-more", "tools/planted"
EDIT_NAME = re.compile(r"[A-Za-z0-9_-][A-Za-z0-9_.-]*\.edit")
HEAD = re.compile(r"^( *)(?:pub(?:\([^)]*\))? )?(?:const |unsafe )*fn (\w+)")
ITEM = re.compile(r"^(?:unsafe )?impl\b(.*)|^(?:pub(?:\([^)]*\))? )?trait (\w+)")


@dataclass(frozen=True)
class Edit:
    """A wrong body: its crate, its path below the top, the function that its first line names, and
    what it replaces in which files, in its order. A planted one is harmless, and has to be told as
    let through."""

    crate: str
    path: str
    named: str
    pairs: tuple
    planted: bool = False

    @property
    def label(self):
        """How a command line names it."""
        return f"{self.crate}/{os.path.splitext(os.path.basename(self.path))[0]}"


def pairs_of(text):
    """Returns the replacements that an edit asks for, in their order: file, old text and new text."""
    pairs, path = [], ""
    for line in text.split("\n"):
        if line.startswith("file: "):
            path = line[6:].strip()
        elif line.startswith("old: "):
            pairs.append([path, line[5:], None])
        elif line.startswith("new:"):
            if not pairs or pairs[-1][2] is not None:
                raise ValueError("a line 'new: ' has no line 'old: ' before it")
            pairs[-1][2] = line[5:] if line.startswith("new: ") else line[4:]
    if not pairs:
        raise ValueError("it has no lines 'old: ' and 'new: '")
    for path, _, new in pairs:
        if not path.startswith("src/") or os.path.normpath(path) != path:
            raise ValueError("no line 'file: ' before its line 'old: ' names a file of src/")
        if new is None:
            raise ValueError("a line 'old: ' has no line 'new: ' behind it")
    return tuple(map(tuple, pairs))


def read_edit(crate, path, planted=False):
    """Returns the edit that stands in a file. Raises ValueError where it isn't one."""
    if not EDIT_NAME.fullmatch(os.path.basename(path)):
        raise ValueError("its name isn't of letters, digits, _, - and . with .edit at its end")
    text = read(f"{TOP}/{path}")
    why = re.match(r"why: ([\w:]+), \S", text)
    if not why:
        raise ValueError("its first line isn't 'why: ', a function, a comma and why that refuses it")
    return Edit(crate, path, why[1], pairs_of(text), planted)


def paths_of(crate):
    """Returns the paths of what stands for edits of a crate; one that is only to be read ends in .md."""
    at = f"crates/{crate}/{FOLDER}"
    return sorted(f"{at}/{it}" for it in os.listdir(f"{TOP}/{at}") if not it.endswith(".md")) if os.path.isdir(f"{TOP}/{at}") else []


def planted_paths():
    """Returns the crate and the path of each planted edit: tools/planted/CRATE/NAME.edit."""
    return [(crate, f"{PLANTED}/{crate}/{it}") for crate in sorted(os.listdir(f"{TOP}/{PLANTED}")) for it in sorted(os.listdir(f"{TOP}/{PLANTED}/{crate}"))]


@dataclass(frozen=True)
class Change:
    """What an edit makes of a crate: the texts of the files that it changes, the functions that are
    to be refused for it, and whether it changes their bodies alone."""

    texts: dict
    functions: frozenset
    is_local: bool


def change_of(edit, texts):
    """Returns the change that an edit makes, of what these texts have or else of the crate's own,
    each replacement in what those before it left. The functions are those that it changes, and where
    a replacement is in no body, as that of a constant, the one that the edit names. Raises
    ValueError where it can't be made."""
    made, functions = {}, set()
    for path, old, new in edit.pairs:
        at = f"{TOP}/crates/{edit.crate}/{path}"
        if path not in made and path not in texts and not os.path.isfile(at):
            raise ValueError(f"there is no {path}")
        text = made.get(path) or texts.get(path) or read(at)
        count = text.count(old) if old else 0
        if count != 1:
            raise ValueError(f"{path} has this {count} times, and not once: {old.strip() or 'an empty text'}")
        functions.add(function_at(edit.crate, path, text, text.index(old)))
        made[path] = text.replace(old, new)
    if all(text == (texts.get(path) or read(f"{TOP}/crates/{edit.crate}/{path}")) for path, text in made.items()):
        raise ValueError("it changes nothing")
    return Change(made, frozenset(it or edit.named for it in functions), None not in functions)


def without_generics(text):
    """Returns a type or a path without what stands between < and >."""
    kept, depth = "", 0
    for before, it in zip(" " + text, text):
        depth += (it == "<") - (it == ">" and before != "-")
        kept += it if depth == 0 and it != ">" else ""
    return kept


def owner_of(line):
    """Returns the type or the trait whose functions stand below a line of a file, and the name that
    the prover has for it: of an impl of a trait it is the type's and the trait's with the types
    that this is for. None where none does."""
    found = ITEM.match(line)
    if not found:
        return None
    if found[2]:
        return found[2], found[2]
    given = re.match(r"\s*(<(?:[^<>]|<[^<>]*>)*>)?(.*)", found[1])
    trait, _, named = given[2].partition(" where")[0].rpartition("{")[0].rpartition(" for ")
    words, own = re.findall(r"\w+", without_generics(named)), re.findall(r"[<,]\s*'?(\w+)", given[1] or "")
    return (words[-1], words[-1] + "".join(it for it in re.findall(r"\w+", trait.split("::")[-1]) if it not in own)) if words else None


def module_of(crate, path):
    """Returns a file's module, by the crate."""
    return "::".join([crate, *[it for it in path[len("src/") : -len(".rt")].split("/") if it not in ("lib", "main", "mod")]])


def homes_of(crate, name):
    """Returns the modules of a crate in which a type of this name stands."""
    at = f"{TOP}/crates/{crate}"
    paths = [os.path.relpath(f"{folder}/{it}", at) for folder, _, files in os.walk(f"{at}/src") for it in files]
    return [module_of(crate, it) for it in paths if re.search(rf"^(?:pub(?:\([^)]*\))? )?(?:struct|enum|trait) {name}\b", read(f"{at}/{it}"), re.M)]


def body_of(lines, head, before):
    """Returns the first and the last line of the body of a function, whose head is this line, behind
    these blanks."""
    places = [it for it in range(head, len(lines)) if lines[it].startswith(before) and lines[it][len(before) :][:1] not in ("", " ")]
    first = next((it for it in places if lines[it].endswith(("{", "}"))), len(lines))
    if first < len(lines) and lines[first].endswith("}"):
        return first, first
    return first, next((it for it in places if it > first and lines[it] == before + "}"), 0)


def function_at(crate, path, text, at):
    """Returns the function of a file in whose body this place is, as the prover names it: its
    modules, those of the type whose own function it is, that type, and the function. None where no
    body is."""
    lines, place, owner, found = text.split("\n"), text[:at].count("\n"), None, None
    for number, line in enumerate(lines[: place + 1]):
        if line[:1] not in ("", " ", "}", ")", "#", "/") and not line.startswith("where"):
            owner = owner_of(line)
        head = HEAD.match(line)
        if head:
            first, last = body_of(lines, number, head[1])
            found = (owner if head[1] else None, head[2]) if first <= place <= last else None
    if not found or not found[0]:
        return found and f"{module_of(crate, path)}::{found[1]}"
    (kind, name), homes = found[0], homes_of(crate, found[0][0])
    home = homes[0] if kind == name and len(homes) == 1 else module_of(crate, path)
    return f"{home}::{name}::{found[1]}"
