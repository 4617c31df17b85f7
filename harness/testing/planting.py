"""Bugs planted in the harness: harness/must-fail/*.edit, small edits of its C and Python, and of
tools that its tests stand on. A part of the tests has to refuse each.

The lines of an edit: `why: ` what it breaks, and what that would cost; `holds: ` the promises that
it would break, as `DRIVE 5, NODES 1`; `seen: PART: WHAT` the front of a line by which a part refuses
it, one line or more; `alone: ` why it is planted alone, where it breaks what other parts rest on;
`file: ` a path below the top; then `old: ` lines that stand there once, one below the other, and
`new: ` lines in their place. A planted one is harmless, and no part may refuse it."""
import collections
import os
import re
import shutil
import subprocess
import tempfile
import time

from trying import HERE

TOP = os.path.dirname(os.path.dirname(HERE))
FOLDER, PLANTED = "harness/must-fail", "harness/must-fail/planted"
# What a copy has beside the harness, and for how many seconds a part there waits for what never comes,
# and goes on at all: what is planted may keep it from coming.
COPIED, LIMITS = ("harness", "tools", "examples", "release"), {"HANG": "20", "LONGEST": "90"}
# In so many days the gate tries each edit once; and so many go together at most, so that what one
# breaks hides little of the others.
TURNS, MOST = 8, 6
Edit = collections.namedtuple("Edit", "name why holds seen swaps is_alone is_planted")


def swaps_of(lines):
    """Returns what an edit swaps: a path, the old text and the new one, of each."""
    swaps, path, last = [], "", ""
    for line in lines:
        word, _, text = line.partition(":")
        text = text[1:]
        if word == "file":
            path = text
        elif word == "old" and last != "old":
            swaps.append([path, text, None])
        elif word == "old":
            swaps[-1][1] += f"\n{text}"
        elif word == "new":
            swaps[-1][2] = text if swaps[-1][2] is None else f"{swaps[-1][2]}\n{text}"
        last = word
    return [tuple(it) for it in swaps]


def read_edit(path):
    with open(path, encoding="utf-8") as it:
        lines = it.read().splitlines()
    of = lambda word: [line[len(word) + 2 :] for line in lines if line.startswith(f"{word}: ")]
    seen = [tuple(it.split(": ", 1)) for it in of("seen")]
    holds = [it.strip() for line in of("holds") for it in line.split(",")]
    swaps = swaps_of(lines)
    if len(of("why")) != 1 or not swaps or any(new is None or not path for path, _, new in swaps) or any(len(it) != 2 for it in seen):
        raise ValueError(f"{path}: it has to have one line `why: `, and `seen: PART: WHAT`, `file: `, `old: ` and `new: `")
    return Edit(os.path.basename(path)[:-5], of("why")[0], holds, seen, swaps, bool(of("alone")), os.path.dirname(path).endswith("planted"))


def all_edits():
    """Returns all edits, and behind them the planted ones."""
    folders = [f"{TOP}/{it}" for it in (FOLDER, PLANTED)]
    return [read_edit(f"{at}/{it}") for at in folders for it in sorted(os.listdir(at)) if it.endswith(".edit")]


def texts_with(edit):
    """Returns the texts that an edit makes, by their paths. Raises ValueError where what it replaces
    isn't there once, or what it makes is no Python any more: that any part refuses."""
    made = {}
    for path, old, new in edit.swaps:
        if path not in made:
            with open(f"{TOP}/{path}", encoding="utf-8") as it:
                made[path] = it.read()
        if made[path].count(old) != 1:
            raise ValueError(f"{edit.name}: {path} has this {made[path].count(old)} times, and not once: {old}")
        made[path] = made[path].replace(old, new)
    for path, text in made.items():
        if path.endswith(".py") or text.split("\n")[0].endswith("python3"):
            check_parses(edit, path, text)
    return made


def check_parses(edit, path, text):
    """Raises ValueError where a text isn't Python."""
    try:
        compile(text, path, "exec")
    except SyntaxError as error:
        raise ValueError(f"{edit.name}: {path} doesn't parse with it: {error}") from None


def wrong_with(edit, parts):
    """Returns what is wrong with an edit, where it can't be tried: what it replaces isn't there, it makes
    what doesn't parse, or no part has that name; or None."""
    try:
        texts_with(edit)
    except (OSError, ValueError) as error:
        return str(error)
    strange = parts_of(edit).difference(parts)
    return f"{edit.name}: there is no part {', '.join(sorted(strange))}" if strange or not edit.seen else None


def parts_of(edit):
    return {part for part, _ in edit.seen}


def next_group(left, alone):
    """Takes edits of other parts and other files, as many as go together, and returns them and the
    texts that they make. Those that go alone come last."""
    taken, texts, parts = [], {}, set()
    for edit in sorted(left, key=lambda it: it.name in alone):
        if len(taken) == MOST or (taken and (edit.name in alone or parts & parts_of(edit) or texts.keys() & {path for path, _, _ in edit.swaps})):
            continue
        taken.append(edit)
        texts |= texts_with(edit)
        parts |= parts_of(edit)
        if edit.name in alone:
            break
    return taken, texts


def lines_by_part(said):
    """Returns the lines that tell what failed, by their part: a part's last line has its counts."""
    found, lines = {}, []
    for line in said.splitlines():
        ended = re.match(r"(\w+): \d+ passed, \d+ failed", line)
        if ended:
            found[ended[1]], lines = lines, []
        elif line.startswith("FAILED: "):
            lines.append(line[8:])
    return found


def refused_by(edit, found):
    """Returns whether each line by which an edit has to be refused is there. One that tells of an
    exception, or of a hang, is none: what failed there may be anything."""
    return all(any(line.startswith(what) for line in found.get(part, [])) for part, what in edit.seen)


def run_group(taken, texts):
    """Runs the parts of these edits over a copy that has them, and returns what failed by part, and
    all that was said."""
    with tempfile.TemporaryDirectory(prefix="planted-", dir=os.path.dirname(TOP) if os.access(os.path.dirname(TOP), os.W_OK) else None) as room:
        for it in COPIED:
            shutil.copytree(f"{TOP}/{it}", f"{room}/{it}", ignore=shutil.ignore_patterns("out", "__pycache__", "must-fail"), symlinks=True)
        shutil.copyfile(f"{TOP}/VERSION", f"{room}/VERSION")
        for path, text in texts.items():
            with open(f"{room}/{path}", "w", encoding="utf-8") as it:
                it.write(text)
        parts = sorted(set().union(*map(parts_of, taken)))
        own = {**os.environ, **LIMITS}
        ran = subprocess.run([f"{room}/harness/test", *parts], env=own, stdin=subprocess.DEVNULL, stdout=subprocess.PIPE, stderr=subprocess.STDOUT, text=True, errors="replace")
    return lines_by_part(ran.stdout), ran.stdout


def chosen(names, turn):
    """Returns the edits of these names, or else all; by turns a share of them, by the day."""
    edits = all_edits()
    strange = set(names).difference(it.name for it in edits)
    if strange:
        raise ValueError(f"there is no edit {', '.join(sorted(strange))}")
    if turn:
        now = int(time.time() // 86400) % TURNS
        print(f"turn {now + 1} of {TURNS}")
        return [it for at, it in enumerate(edits) if at % TURNS == now or it.is_planted]
    return [it for it in edits if not names or it.name in names]


def try_edits(edits):
    """Tries edits, says what came of each, and returns how many came to what they have to, and how
    many didn't. What isn't refused among others goes again alone."""
    left, alone, wrong, groups = list(edits), {it.name for it in edits if it.is_alone}, 0, 0
    while left:
        taken, texts = next_group(left, alone)
        groups, begun = groups + 1, time.monotonic()
        found, said = run_group(taken, texts)
        print(f"copy {groups}, of {len(taken)} of the {len(left)} edits that are left, after {time.monotonic() - begun:.0f} s", flush=True)
        for edit in taken:
            is_refused = refused_by(edit, found)
            if not is_refused and not edit.is_planted and len(taken) > 1:
                alone.add(edit.name)
                print(f"{edit.name}: not refused among others, and goes again alone")
                continue
            left.remove(edit)
            is_right = is_refused != edit.is_planted
            wrong += not is_right
            print(f"{edit.name}: {'refused' if is_refused else 'let through'}" + ("" if is_right else f", and has not to be:\n{said}"), flush=True)
    return len(edits) - wrong, wrong
