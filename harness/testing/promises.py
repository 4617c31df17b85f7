"""The promises of the pages that rest on the harness, and what holds each: the bugs that would break
it, planted by harness/test --plant, and the parts that refuse these."""
import re

from planting import TOP, all_edits, wrong_with

PAGES = ("DRIVE", "FLEET", "NODES")


def promises_of(page):
    """Returns the numbered promises of a page by their numbers, each up to its first full stop: the
    items of the section on what rests on the harness."""
    with open(f"{TOP}/docs/{page}.md", encoding="utf-8") as it:
        section = re.search(r"^## [^\n]*rests on the harness\n(.*?)(?=^## |\Z)", it.read(), re.M | re.S)[1]
    items = re.findall(r"^(\d+)\. (.*?)(?=\n\n|\n\d+\. |\n- |\Z)", section, re.M | re.S)
    return {f"{page} {number}": re.sub(r"\s+", " ", text).replace("**", "").split(". ")[0].rstrip(".") for number, text in items}


def tell_promises(parts):
    """Says of each promise which edits and parts hold it, and returns how many are held, and how many
    aren't: those that no edit would break, those that an edit names and no page has, and the edits
    that can't be tried."""
    promises, held = {}, {}
    for page in PAGES:
        promises |= promises_of(page)
    for edit in (it for it in all_edits() if not it.is_planted):
        for promise in edit.holds:
            held.setdefault(promise, []).append(edit)
    for promise, words in promises.items():
        edits = held.get(promise, [])
        print(f"{promise}: {words}")
        print(f"  bugs: {', '.join(it.name for it in edits) or 'none'}")
        print(f"  parts: {', '.join(sorted({part for it in edits for part, _ in it.seen})) or 'none'}")
    wrong = [it for it in promises if it not in held] + [it for it in held if it not in promises]
    untried = [it for it in (wrong_with(edit, parts) for edit in all_edits()) if it]
    for it in wrong:
        print(f"FAILED: {it}: " + ("no planted bug would break it" if it in promises else "no page has it"))
    for it in untried:
        print(f"FAILED: {it}")
    return len([it for it in promises if it in held]), len(wrong) + len(untried)
