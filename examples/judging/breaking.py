"""Attacks the judge by outputs that are wrong, made of right ones: each is false by one claim.

Each kind of change makes outputs of scripts in turn, not of the same ones as the kind before it,
and none twice. All of them read well, and each has to be refused by the claim that it breaks; a
kind of which none could be made fails.
"""

from collections import Counter

from judging.broken_answers import BROKEN_ANSWERS
from judging.broken_disks import BROKEN_DISKS
from judging.broken_notes import BROKEN_NOTES
from judging.broken_reports import BROKEN_REPORTS
from judging.broken_sendings import BROKEN_SENDINGS
from judging.broken_states import BROKEN_STATES
from judging.broken_unknown import BROKEN_UNKNOWN
from judging.draft import Case
from judging.judge import judge
from judging.verdict import CLAIMS

KINDS = (BROKEN_STATES + BROKEN_REPORTS + BROKEN_DISKS + BROKEN_SENDINGS + BROKEN_ANSWERS
         + BROKEN_NOTES + BROKEN_UNKNOWN)
MOST = 12  # outputs of one kind


def name_of(kind):
    """What a kind is called."""
    return " ".join(kind.__doc__.split())


def outputs_of(kind, cases, made):
    """The outputs of a kind that aren't made yet, each with its case: one of each, then again."""
    left = [(case, kind(case)) for case in cases]
    while left:
        going = []
        for case, drafts in left:
            texts = (draft.text() for draft in drafts)
            text = next((it for it in texts if (case.name, it) not in made), None)
            if text is not None:
                made.add((case.name, text))
                going.append((case, drafts))
                yield case, text
        left = going


def all_outputs(cases):
    """The outputs of all kinds: the claim, the kind, the case and the output of each."""
    made = {(case.name, case.printed) for case in cases}
    for place, (claim, kind) in enumerate(KINDS):
        turn = place * 7 % len(cases)
        outputs = outputs_of(kind, cases[turn:] + cases[:turn], made)
        for (case, text), _ in zip(outputs, range(MOST)):
            yield claim, kind, case, text


def is_refused(claim, case, text):
    """The judge refuses an output by this claim, and can read it."""
    wrong = {found for found, _ in judge(case.script, text).wrong}
    return claim in wrong and "output" not in wrong


def run_broken(examples):
    """Makes outputs of scripts and of their right outputs, each with its name, and tells how many
    are refused by the claim that they break, and how many aren't."""
    cases = [Case(*example) for example in examples]
    made, refused, scripts = Counter(), Counter(), set()
    for claim, kind, case, text in all_outputs(cases):
        made[claim, kind] += 1
        scripts.add(case.name)
        if is_refused(claim, case, text):
            refused[claim, kind] += 1
        else:
            print(f"LET THROUGH {case.name}: {name_of(kind)} {judge(case.script, text).line()}")
    for claim, kind in KINDS:
        count = made[claim, kind]
        print(f"broken {claim}: {name_of(kind)} {refused[claim, kind]} of {count} refused")
    print_sums(made, scripts)
    without = sum(not made[row] for row in KINDS)
    passed = sum(refused.values())
    return passed, sum(made.values()) - passed + without


def print_sums(made, scripts):
    """Prints of how many scripts outputs were made, and how many are false by each claim."""
    claims = Counter()
    for (claim, _), count in made.items():
        claims[claim] += count
    print(f"broken in all: {sum(claims.values())} outputs of {len(scripts)} scripts: " + ", ".join(
        f"{claim} {claims[claim]}" for claim in CLAIMS))
