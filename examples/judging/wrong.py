"""Judges what wrong programs printed: each row of the list in wrong/ names a script, the claim by
which its output is to be refused, and what was wrong with the program.

NAME.world is the script, NAME.out what the wrong program printed of it. What the right one prints
has to be right. Where a row says `changed`, the right output was changed by hand. Else it names the
edits that were planted in the program: CRATE/EDIT is crates/CRATE/must-fail-more/EDIT.edit, and
EDIT.edit stands beside the list.
"""

import os

from judging.judge import judge

FOLDER = os.path.join(os.path.dirname(os.path.realpath(__file__)), "wrong")


def rows():
    """The rows of the list, as name, claim and what was wrong."""
    with open(os.path.join(FOLDER, "list"), encoding="utf-8") as file:
        for line in file:
            words = line.split()
            if words and not words[0].startswith("#"):
                yield words[0], words[1], " ".join(words[2:])


def text_of(name):
    """A file of the folder, each byte as a character."""
    with open(os.path.join(FOLDER, name), encoding="latin-1", newline="") as file:
        return file.read()


def is_refused_by(claim, script, output):
    """The output can be read, and is refused by this claim."""
    wrong = {found for found, _ in judge(script, output).wrong}
    return claim in wrong and "output" not in wrong


def run_wrong(printed_by):
    """Judges each output of the list and what the right program prints of its script, and tells how
    many of both are judged as they should be, and how many aren't."""
    passed, failed = 0, 0
    for name, claim, what in rows():
        script = text_of(f"{name}.world")
        is_refused = is_refused_by(claim, script, text_of(f"{name}.out"))
        right = judge(script, printed_by(script))
        is_right = right.is_good()
        print(f"wrong {name} ({what}): {'refused' if is_refused else 'LET THROUGH'} by {claim}; "
              f"the right program's output: {'taken' if is_right else right.line()}")
        passed, failed = passed + is_refused + is_right, failed + 2 - is_refused - is_right
    return passed, failed
