#!/usr/bin/env python3
"""Reads crates/*/specs/*.antt: the comment above each definition, and which definitions each one
names. tools/make-definitions uses it. Run by itself, it reads a few planted files, in which a
definition is handed on, or has the name of a variable, and prints `1 passed, 0 failed` where it
finds what they are made of."""
import re, sys, tempfile
from collections import namedtuple

sys.dont_write_bytecode = True
from words import answer

USE = re.compile(r"(pub )?use Rattle\.(\w+)\.specs\.(\w+)(?:\.\{(.*)\}| as (\w+))?$")
WORD = re.compile(r"[A-Za-z_][\w'-]*(?:\.[A-Za-z_][\w'-]*)*")
DEFINITION = re.compile(r"(abbrev |unfoldable )*(pub )?(record |data )?([^\s:(){}]+)(?= )")
VARIANT = re.compile(r"  (?:pub )?([^\s:(){}]+) : ")
BOUND = re.compile(r"(?<![\w'.-])[a-z_][\w'-]*(?![\w'.-])")
# How a comment begins that goes on from what stands above it, and how many words one has at least.
GOES_ON, LEAST = re.compile(r"(And|It|Its|Nor|Or|So|The same|They)\b"), 4


def stands_alone(comment):
    """Returns whether a comment may be read by itself: it doesn't go on from another, and is a sentence."""
    return not GOES_ON.match(comment) and len(comment.split()) >= LEAST


class Row:
    """Definitions that share a comment: their names, what it says, and the variants and fields that
    have words of their own."""

    def __init__(self, says):
        self.names, self.says, self.parts = [], says, []


class File:
    """A file of specs/: its sentence, and its rows under the words of each of its parts. By name
    also the text of each definition, which definition a name or a variant is of, and what the file
    takes from others, or hands on (`pub use`)."""

    def __init__(self, path):
        self.sentence, self.parts = "", [("", [])]
        self.texts, self.own, self.uses = {}, {}, []
        with open(path, encoding="utf-8") as it:
            self.read(it.read().splitlines())

    def rows(self):
        return [row for _, rows in self.parts for row in rows]

    def names(self):
        return [name for row in self.rows() for name in row.names]

    def note(self, line, name, is_data):
        """Notes a line of code of a definition."""
        if name:
            self.texts.setdefault(name, []).append(line.partition("  -- ")[0])
            self.own[name] = name
            if is_data and VARIANT.match(line) and not line.startswith("  pub "):
                self.own[VARIANT.match(line).group(1)] = name

    def read(self, lines):
        comment, row, in_mutual, in_data, name = [], None, False, False, ""
        for line in lines:
            text = line.strip()
            if USE.match(text):
                self.uses.append(USE.match(text).groups())
            if text.startswith("-- ----"):
                self.parts.append((text[len("-- ----") :].strip(), []))
                comment, row = [], None
            elif text.startswith("--") and (not line.startswith(" ") or in_mutual):
                comment.append(text[2:].strip())
            elif not text or USE.match(line) or line.startswith("use "):
                if comment and not self.sentence:
                    self.sentence = " ".join(comment)
                comment = []
            elif not line.startswith(" ") or (in_mutual and line.startswith("  pub ")):
                in_mutual = text == "abbrev mutual" or (in_mutual and line.startswith(" "))
                found = DEFINITION.match(text)
                if found and found.group(2):
                    if comment or row is None:
                        row = Row(" ".join(comment))
                        self.parts[-1][1].append(row)
                    name = found.group(4)
                    row.names.append(name)
                elif comment:
                    row = None
                in_data = bool(found and found.group(2) and found.group(3))
                comment = []
                self.note(line, name, in_data)
            elif in_data and VARIANT.match(line) and row:
                words = line.partition("  -- ")[2]
                if words or not line.startswith("  pub "):
                    row.parts.append((VARIANT.match(line).group(1), words.strip()))
                self.note(line, name, in_data)
            else:
                self.note(line, name, in_data)


def words_of(listed):
    """The words in the braces of a use, each with the one that it has here."""
    for each in (listed or "").split(","):
        word, _, as_word = each.strip().partition(" as ")
        yield word, as_word or word


def equations_of(name, lines):
    """The text of a definition, in parts: what stands before its equations, and each of these."""
    parts, indent = [[]], " " * (len(lines[0]) - len(lines[0].lstrip()))
    for line in lines:
        if line.startswith(f"{indent}{name} ") and not line.startswith(f"{indent}{name} :"):
            parts.append([])
        parts[-1].append(line)
    return ["\n".join(part) for part in parts]


def bound_by(name, equation):
    """The variables that the left side of an equation binds."""
    left, equals, _ = equation.partition(" =")
    return {*BOUND.findall(left)} - {name} if equals and left.strip().startswith(f"{name} ") else set()


class Names:
    """What each definition names, over all crates. A definition is its crate, its file and its name."""

    def __init__(self, crates):
        self.files = {(crate.name, file): it for crate in crates for file, it in crate.files.items()}
        self.scopes, self.named = {place: self.scope_of(place) for place in self.files}, {}

    def scope_of(self, place):
        """What the words in a file stand for: definitions, and files under a name of their own; and
        which of the words are variants."""
        names, folders = {word: (*place, name) for word, name in self.files[place].own.items()}, {}
        variants = {word for word, name in self.files[place].own.items() if word != name}
        for _, crate, file, listed, other in self.files[place].uses:
            if (crate, file) in self.files and listed is None:
                folders[other or file] = (crate, file)
            for word, as_word in words_of(listed):
                at, there = self.place_of((crate, file), word)
                if at:
                    names[as_word] = self.found(at, there)
                    variants |= {as_word} if names[as_word][2] != there else set()
        return names, folders, variants

    def place_of(self, place, word):
        """The file where a word of this file stands, its own or one that hands it on, and the word
        that it is there."""
        file = self.files.get(place)
        if file and word in file.own:
            return place, word
        for shared, crate, other, listed, _ in file.uses if file else []:
            for there, as_word in words_of(listed) if shared else []:
                if as_word == word:
                    return self.place_of((crate, other), there)
        return None, word

    def found(self, place, word):
        """The definition that a word of this file is of: its own, or one that it hands on."""
        at, there = self.place_of(place, word)
        return (*at, self.files[at].own[there]) if at else None

    def named_by(self, definition):
        """The definitions that this one names."""
        if definition not in self.named:
            self.named[definition] = [*self.read_named(definition)]
        return self.named[definition]

    def read_named(self, definition):
        """Where an equation binds the name of a definition, it's a variable there."""
        crate, file, name = definition
        names, folders, variants = self.scopes[crate, file]
        for equation in equations_of(name, self.files[crate, file].texts[name]):
            bound = bound_by(name, equation) - variants
            for word in WORD.findall(equation):
                first, *more = word.split(".")
                found = self.found(folders[first], more[0]) if first in folders and more else None
                if first in bound:
                    continue
                if found:
                    yield found
                elif first in names:
                    yield names[first]

    def made_of(self, roots, named=frozenset(), met=None):
        """These definitions, and all that they are made of. What is named isn't unfolded, and is no
        part of it; `met` gets what there is of that."""
        found, left = set(roots), list(roots)
        while left:
            for each in self.named_by(left.pop()):
                if each in named:
                    if met is not None:
                        met.add(each)
                elif each not in found:
                    found.add(each)
                    left.append(each)
        return found

    def lines(self, definitions):
        return sum(bool(line.strip()) for crate, file, name in definitions for line in self.files[crate, file].texts[name])


def places(definitions):
    return {definition[:2] for definition in definitions}


PLANTED = {
    "low": "-- A number.\nabbrev pub low : ℕ\nlow = 1\n",
    "mid": "-- What is handed on.\npub use Rattle.low.specs.it.{low as handed}\n",
    "high": "-- A word.\nuse Rattle.mid.specs.it.{handed as mine}\nabbrev pub high : ℕ\nhigh = mine\n",
    "top": "-- A file.\nuse Rattle.mid.specs.it as mid\nabbrev pub top : ℕ\ntop = mid.handed\n",
    "own": "-- A variable.\nuse Rattle.low.specs.it.{low}\nabbrev pub own : ℕ → ℕ\nown zero = zero\nown low = low\n",
    "call": "-- A call.\nuse Rattle.low.specs.it.{low}\nabbrev pub call : ℕ → Bool\ncall n =\n    call low == n\n",
    "sort": "-- A sort.\npub data Sort : Type 0 where\n  one : Sort\n  two : Sort\n",
    "sorts": "-- By variants.\nuse Rattle.sort.specs.it.{one, two as other}\nabbrev pub sorts : _ → ℕ\nsorts other = 0\nsorts _ = 1\n",
    "both": "-- And one beside it.\nuse Rattle.low.specs.it.{low}\nabbrev pub both : ℕ → ℕ\nboth zero = low\nboth low = low\n",
}


def main():
    answer(__doc__, sys.argv[1:], lambda it: False)
    planted = namedtuple("Planted", "name files")
    crates = []
    for name, text in PLANTED.items():
        with tempfile.NamedTemporaryFile("w", encoding="utf-8") as it:
            it.write(text)
            it.flush()
            crates.append(planted(name, {"it": File(it.name)}))
    names, low = Names(crates), ("low", "it", "low")
    passed = all(names.made_of([(name, "it", name)]) == {(name, "it", name), low} for name in ("high", "top", "both", "call"))
    passed = passed and names.made_of([("own", "it", "own")]) == {("own", "it", "own")}
    passed = passed and names.made_of([("sorts", "it", "sorts")]) == {("sorts", "it", "sorts"), ("sort", "it", "Sort")}
    passed = passed and crates[1].files["it"].names() == []
    print("1 passed, 0 failed" if passed else "0 passed, 1 failed")
    return 0 if passed else 1


if __name__ == "__main__":
    raise SystemExit(main())
