"""Reads the contracts in crates/*/src: which definitions of specs/ the clauses of a public function
name. tools/make-definitions uses it, and tools/test-tools tests it."""
import os, re

from read_specs import WORD, words_of

USE = re.compile(r"ghost use Rattle\.(\w+)\.specs\.(\w+)(?:\.\{([^}]*)\}| as (\w+))?;")
CLAUSE = re.compile(r"\bensures (?:(\w+) )?\{")
FUNCTION = re.compile(r"^ *(?:pub(?:\([^)]*\))? )?(?:const )?fn ", re.M)


def place_of(function):
    """The file, the type or nothing, and the name of `crate::file::function` or of
    `crate::file::Type::function`."""
    crate, *parts, name = function.split("::")
    own = parts.pop() if parts and parts[-1][:1].isupper() else None
    return f"crates/{crate}/src/{'/'.join(parts)}.rt", own, name


def blocks_of(text, own):
    """The text, or where there is a type the blocks of its methods."""
    if not own:
        return [text]
    return re.findall(rf"^impl\b[^{{]*\b{own}\b[^{{]*\{{.*?^\}}", text, re.S | re.M)


def is_shown(crate, word):
    """Whether the crate hands this word on to those that use it."""
    path = f"crates/{crate}/src/lib.rt"
    if not os.path.isfile(path):
        return False
    with open(path, encoding="utf-8") as it:
        listed = re.findall(r"^pub use ([^;]*);", it.read(), re.S | re.M)
    return any(word in re.findall(r"\w+", each.rpartition("::")[2]) for each in listed)


class Contract:
    """What a public function promises: its clauses, by name, what the words in them stand for, and
    the comment above it. `fault` says why there is none."""

    def __init__(self, function):
        self.clauses, self.uses, self.comment, self.fault = {}, [], "", None
        path, own, name = place_of(function)
        crate = function.partition("::")[0]
        if not os.path.isfile(path):
            self.fault = f"there is no {path}"
            return
        with open(path, encoding="utf-8") as it:
            text = it.read()
        head = rf"((?:^ *//[^\n]*\n|^ *#\[[^\n]*\n)*)^( *)pub fn {name}\b.*?^\2\{{"
        found = [m for block in blocks_of(text, own) for m in re.finditer(head, block, re.S | re.M)]
        found = [m for m in found if len(FUNCTION.findall(m.group())) == 1]
        if len(found) != 1:
            self.fault = f"{path} has no public function {own + '::' if own else ''}{name} with a contract"
        elif not is_shown(crate, own or name):
            self.fault = f"crates/{crate}/src/lib.rt doesn't hand {own or name} on"
        else:
            self.uses = USE.findall(text)
            self.comment = " ".join(" ".join(re.findall(r"^ */// ?(.*)", found[0].group(1), re.M)).split())
            self.read(re.sub(r"//.*", "", found[0].group()))

    def read(self, text):
        for clause in CLAUSE.finditer(text):
            at, depth = clause.end(), 1
            while depth:
                depth += {"{": 1, "}": -1}.get(text[at], 0)
                at += 1
            self.clauses[clause.group(1) or ""] = text[clause.end() : at - 1]

    def named_by(self, names, text):
        """The definitions that a clause names."""
        scope, folders = {}, {}
        for crate, file, listed, other in self.uses:
            if not listed:
                folders[other or file] = (crate, file)
            for word, as_word in words_of(" ".join(listed.split())):
                found = names.found((crate, file), word)
                if found:
                    scope[as_word] = found
        for word in WORD.findall(text):
            first, *more = word.split(".")
            found = names.found(folders[first], more[0]) if first in folders and more else scope.get(first)
            if found:
                yield found


def is_answer(text):
    """Whether a clause says something of what the function answers or leaves."""
    return bool(re.search(r"\bresult\b|\.new\b", text))
