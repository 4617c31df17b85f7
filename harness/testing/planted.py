"""What is made of bugs that are planted: how an edit is read, which go together, and when one counts
as refused."""
from planting import Edit, lines_by_part, next_group, refused_by, swaps_of, texts_with, wrong_with
from trying import tell

KEEPING, BYTES, SAY = (f"harness/common/{it}.c" for it in ("keeping", "bytes", "say"))
SAID = """FAILED: a first line: 1, and not 2
one: 3 passed, 1 failed, 0 skipped, after 0 s
FAILED: two: two.py:7: FileNotFoundError: nothing
two: 1 passed, 1 failed, 0 skipped, after 0 s
FAILED: a first line of three: 1, and not 2
three: 0 passed, 1 failed, 0 skipped, after 0 s
"""


def edit(name, *seen, path=KEEPING, old=None):
    old = old or f'#include "{path[15:-2]}.h"'
    return Edit(name, "why", [], list(seen), [(path, old, f"{old} /* {name} */")], False, False)


def plants_told():
    """An edit is refused by its line of its part, and by nothing else; edits of one part don't go
    together; and one whose text is gone is told, as is one that leaves no Python."""
    lines = ["why: a, b", f"file: {KEEPING}", "old: one", "old:   two", "new: three", "old: four", "new:", "new: five"]
    tell("an edit's lines", swaps_of(lines), [(KEEPING, "one\n  two", "three"), (KEEPING, "four", "\nfive")])
    found = lines_by_part(SAID)
    for what, seen, due in (
        ("its line", ("one", "a first line"), True),
        ("another line of its part", ("one", "a second line"), False),
        ("an exception in its part", ("two", "a first line"), False),
        ("its line in another part", ("two", "a first line of three"), False),
        ("a part that wasn't run", ("four", "a first line"), False),
    ):
        tell(f"an edit is refused by {what}", refused_by(edit("a", seen), found), due)
    tell("both of two lines are wanted", refused_by(edit("a", ("one", "a first line"), ("three", "nothing")), found), False)
    a, b, c, d = edit("a", ("x", "")), edit("b", ("x", ""), path=BYTES), edit("c", ("y", ""), path=SAY), edit("d", ("z", ""))
    tell("edits of other parts and files go together", [it.name for it in next_group([a, b, c, d], set())[0]], ["a", "c"])
    tell("one that goes alone", [it.name for it in next_group([a, c], {"a", "c"})[0]], ["a"])
    tell("each changes its file", [text.count(f"/* {it} */") for it, text in zip("ac", next_group([a, c], set())[1].values())], [1, 1])
    gone = edit("e", ("x", ""), old="#include \"nothing.h\"")
    tell("an edit whose text is gone", "0 times" in (wrong_with(gone, {"x"}) or ""), True)
    unparsed = edit("f", ("x", ""), path="harness/testing/pass_on.py", old="sys.dont_write_bytecode = True")
    tell("an edit that leaves no Python", "doesn't parse" in (wrong_with(unparsed, {"x"}) or ""), True)
    tell("an edit of no part", "there is no part x" in (wrong_with(a, {"y"}) or ""), True)
    tell("an edit that can be tried", (wrong_with(a, {"x"}), texts_with(a)[KEEPING].count("/* a */")), (None, 1))
