"""The rows of a catalogue of stacks: what came of each, as a line of a table."""
import json
import os
import re

HEAD = "| Stack | What it is | Asked | Cuts | Told as done | Checked | Faults | fio, of so many cuts | With, on |\n|---|---|---|---|---|---|---|---|---|"
WHO = {"all": "", "disks": " of the disks alone", "member": " behind the fall of a disk"}
OF_BLOCKS = re.compile(r"\b[0-9][0-9,]* of [0-9,]*[0-9]{3}\b")
ROW = re.compile(r"\| `([a-z0-9-]+)` \|.*\| ([0-9,]+) of [0-9,]+(?:: [^|]*)? in [0-9]+ cuts[^|]*\|[^|]*\|[^|]*\|$")


def count(number):
    return f"{number:,}"


def fio_of(row):
    """In how many of its cuts fio told of faults, and in how many on each disk by itself."""
    ran = [it for it in row["fio"] if "why" not in it]
    if not ran:
        return "no answer" if row["fio"] else "not asked"
    members = ", ".join(f"{sum(it)} of {len(it)}" for it in zip(*(it.get("members", []) for it in ran)))
    return f"faults in {sum(it['fault'] for it in ran)} of {len(ran)}" + (f"; each disk by itself: in {members}" if members else "")


def line_of(stack, row):
    """The line of a stack's row."""
    kinds = " ".join(f"{word} {count(number)}" for word, number in row["kinds"].items())
    faults = f"{count(row['faults'])} of {count(row['checked'])}{': ' + kinds if kinds else ''} in {row['faulty']} cuts"
    members = "; each disk by itself: " + ", ".join(f"{count(it['faults'])} of {count(it['checked'])}" for it in row["members"]) if row["members"] else ""
    ways = {it.partition(" by ")[2] for it in row["ways"]} - {""}
    asked = ", ".join([f"`{stack.promise.partition(' ')[0]}`", *(ways if len(ways) == 1 else [])])
    return f"| `{stack.name}` | {stack.what} | {asked} | {row['cuts']}{WHO[stack.cut]}, {row['flying']} with writes in flight ({count(row['in_flight'])}) | {count(row['told'])} | {count(row['checked'])} | {faults}{members} | {fio_of(row)} | {row['kernel']}, {row['qemu']}, {row['date']} |"


def print_rows(folder, stacks):
    """Prints a line for each of these stacks that has a row in the folder."""
    print(HEAD)
    for stack in stacks:
        path = f"{folder}/{stack.name}/row.json"
        if os.path.exists(path):
            with open(path, encoding="utf-8") as it:
                print(line_of(stack, json.load(it)))
    return 0


def wrong_in(stacks, text):
    """Yields what isn't right in the page: each row is of a stack, each stack has one, and it has faults or
    none, as its file says is due."""
    rows = {found[1]: found for found in map(ROW.match, text.splitlines()) if found}
    yield from (f"{name} has a row, and is no stack" for name in rows if name not in stacks)
    for name, stack in stacks.items():
        if name not in rows:
            yield f"{name} has no row"
        elif stack.due != "any" and (rows[name][2] != "0") != (stack.due != "sound"):
            yield f"{name}: its row isn't {stack.due}"


def unlike(front, text):
    """Yields each number of faults that the front page tells of a stack, and no row of the page has."""
    told = front.partition("(docs/CATALOGUE.md)")[2].partition("\n\n|")[2].partition("\n\n")[0]
    rows = "\n".join(filter(ROW.match, text.splitlines()))
    known = {*OF_BLOCKS.findall(rows)}
    found = OF_BLOCKS.findall(told)
    yield from (f"README tells {it}, and no row does" for it in found if it not in known)
    if not found:
        yield "README tells of no stack"


def look(stacks, page, front):
    """Tells of the files of stacks, which were read already, of the page, and of what the front page tells of
    it."""
    with open(page, encoding="utf-8") as it, open(front, encoding="utf-8") as first:
        text = it.read()
        wrong = [*wrong_in(stacks, text), *unlike(first.read(), text)]
    print("".join(f"FAILED: {it}\n" for it in wrong) + f"{len(stacks) - len(wrong)} passed, {len(wrong)} failed")
    return 1 if wrong else 0
