"""Tries the wrong bodies of a crate, several in one check, and tells by what the prover says of each
one's function what came of it."""
import os
import re
import shutil
import subprocess
import threading
import time

import crates
import edits
from crates import TEXTS, TOP

# How long a check may take, in seconds: none of a crate has taken a third of it.
LONGEST = 3600
TOLD = re.compile(r"fn (\S+): (proved|not proved|no proof|could not tell)(.*)")
CALLS = re.compile(r"it calls (.*), which (?:is|are) not proved")
UNNAMED = re.compile(r"has no function `([^`]*)`|several functions are named `([^`]*)`")
# What comes of an edit. Of those of the last two nothing is known yet.
REFUSED, AT_LIMIT, LET_THROUGH, MASKED, UNCLEAR = "refused", "refused by a limit of the prover", "let through", "masked", "unclear"


class Told:
    """What a check says: of each function, and in all."""

    def __init__(self, status, text):
        self.status, self.text, self.of = status, text, {}
        for line in text.splitlines():
            found = TOLD.match(line)
            if found:
                self.of[found[1]] = found[2], found[3]

    def parts(self, function):
        """Returns what is told of a function and of the closures in it."""
        inside = f"{function}::"
        return [it for name, it in self.of.items() if f"::{name}".endswith(f"::{function}") or name.replace("::fn::", "::").startswith(inside)]

    def unproved_below(self, function):
        """Returns the functions that a function calls, and those call, that are not proved."""
        found, left = set(), [function]
        while left:
            called = CALLS.search(self.of.get(left.pop(), ("", ""))[1])
            new = set(re.findall(r"`([^`]+)`", called[1]) if called else ()) - found
            found, left = found | new, [*left, *new]
        return found

    def first_error(self):
        """Returns a line that says why no function was judged."""
        return next((it for it in self.text.splitlines() if "error" in it), self.text.strip().rpartition("\n")[2])


def outcome_of_all(told):
    """Returns what came of an edit that was tried alone, of the whole crate, and why: whichever
    function isn't proved shows that it is refused."""
    unproved = [name for name, (how, _) in told.of.items() if how in ("not proved", "no proof")]
    if unproved and told.status == 1:
        return REFUSED, f"{unproved[0]} is not proved"
    if told.status == 0:
        return LET_THROUGH, "all is proved"
    return (AT_LIMIT if told.status == 3 else UNCLEAR), told.first_error()


def outcome(functions, told):
    """Returns what came of an edit of these functions, and why: of that which says most."""
    return min((outcome_at(it, told) for it in functions), key=lambda it: (REFUSED, MASKED, UNCLEAR, AT_LIMIT, LET_THROUGH).index(it[0]))


def outcome_at(function, told):
    """Returns what came of an edit at one function, and why."""
    parts = told.parts(function)
    if any(how in ("not proved", "no proof") and not CALLS.search(rest) for how, rest in parts):
        return REFUSED, f"{function} is not proved"
    if any(CALLS.search(rest) for _, rest in parts):
        return MASKED, f"{function} calls {', '.join(sorted(told.unproved_below(function)))}"
    if any(how == "could not tell" for how, _ in parts):
        return AT_LIMIT, function
    return (LET_THROUGH, f"{function} is proved") if parts else (UNCLEAR, told.first_error())


def is_right(kind, is_planted):
    """Returns whether an edit came to what it has to: a planted one is harmless."""
    return kind == LET_THROUGH if is_planted else kind in (REFUSED, AT_LIMIT)


class Tries:
    """The edits of a crate, as they are tried: check by check, each over what the one before left."""

    def __init__(self, name, mine, lines, room, kit):
        self.name, self.left, self.room = name, [*mine], f"{room}/{name}"
        self.words = crates.check_words(name, lines, f"{room}/below", kit)
        # What came of each, the edits that go alone, those among them whose function the prover
        # doesn't know, and the functions that masked an edit.
        self.came, self.alone, self.unnamed, self.masks = {}, {it for it in mine if not edits.change_of(it, {}).is_local}, set(), {}
        self.checks, self.sole, self.running, self.is_stopped = 0, 0, None, threading.Event()

    def clash(self, one, its, other, others):
        """Returns whether two edits can't be in one check, by their functions."""
        return its & others or self.masks.get(one, set()) & others or self.masks.get(other, set()) & its

    def group(self):
        """Returns the edits of the next check with the functions of each, and the texts that they
        make: edits of different functions, each of what those before it left, and at last those
        that go alone."""
        taken, texts = {}, {}
        for it in sorted(self.left, key=self.alone.__contains__):
            if taken and it in self.alone:
                continue
            try:
                change = edits.change_of(it, texts)
            except ValueError:
                # (what it replaces isn't there once beside the others)
                continue
            if not any(self.clash(it, change.functions, other, others) for other, others in taken.items()):
                taken[it] = change.functions
                texts.update(change.texts)
            if it in self.alone:
                break
        return taken, texts

    def check(self, functions, texts):
        """Has the prover check a copy with these texts: these functions, or all where there are none.
        Returns what it says."""
        at = f"{self.room}/{self.checks}"
        for part in TEXTS:
            if os.path.isdir(f"{TOP}/crates/{self.name}/{part}"):
                shutil.copytree(f"{TOP}/crates/{self.name}/{part}", f"{at}/{part}")
        for path, text in texts.items():
            with open(f"{at}/{path}", "w", encoding="utf-8") as it:
                it.write(text)
        only = [word for it in sorted(functions) for word in ("--only", it)]
        words = [*self.words, "--incremental", f"{self.room}/kept", *only]
        how = {"stdin": subprocess.DEVNULL, "stdout": subprocess.PIPE, "stderr": subprocess.STDOUT, "text": True, "errors": "replace"}
        with subprocess.Popen(words, cwd=at, **how) as self.running:
            try:
                said = self.running.communicate(timeout=LONGEST)[0]
            except subprocess.TimeoutExpired:
                self.running.kill()
                said = f"error: the check took over {LONGEST} seconds"
        shutil.rmtree(at)
        return Told(self.running.returncode, said)

    def try_next(self):
        """Tries edits in one check. Returns a line for it, and one for each edit."""
        taken, texts = self.group()
        self.checks, self.sole, begun = self.checks + 1, self.sole + (len(taken) == 1), time.time()
        is_whole = self.unnamed.issuperset(taken)
        told = self.check(set() if is_whole else set().union(*taken.values()), texts)
        lines = [f"{self.name}: check {self.checks}, of {len(taken)} of the {len(self.left)} edits that are left, after {time.time() - begun:.0f} s"]
        strange = {one or other for one, other in UNNAMED.findall(told.text)}
        for it, functions in taken.items():
            kind, why = outcome_of_all(told) if is_whole else outcome(functions, told)
            if self.goes_again(it, functions, kind, told, strange):
                lines.append(f"{it.label}: {kind}, and goes again{' alone' if it in self.alone else ''}: {why}")
            else:
                self.left.remove(it)
                self.came[it] = kind
                lines.append(f"{it.label}: {kind}: {why}")
        return lines

    def goes_again(self, edit, functions, kind, told, strange):
        """Returns whether an edit goes again, and notes how: behind what is told, in which these
        names are strange to the prover."""
        if functions & strange and edit not in self.unnamed:
            self.alone.add(edit)
            self.unnamed.add(edit)
            return True
        if edit in self.alone or kind in (REFUSED, LET_THROUGH):
            return False
        if kind == MASKED and edit not in self.masks:
            self.masks[edit] = set().union(*map(told.unproved_below, functions))
        elif not strange:
            self.alone.add(edit)
        return True

    def run(self, say):
        """Tries all edits, and says a line of each as it comes."""
        os.makedirs(self.room)
        while self.left and not self.is_stopped.is_set():
            for line in self.try_next():
                say(line)
        shutil.rmtree(self.room, ignore_errors=True)
        return self

    def stop(self):
        """Ends what runs."""
        self.is_stopped.set()
        if self.running:
            self.running.kill()
