"""Ledgers in random stories, told to `drive` and to a reading of the pages; and readings with bugs,
each of which the stories find."""
import os
import tempfile

from ledger_planted import MOST, PLANTS, planted_in
from ledger_reading import KINDS
from ledger_stories import tell_stories
from trying import tell

COUNT = 400
# The planted bugs that are tried each time; all of them are by `ledger_stories.py --plant`.
TRIED = (
    "prefers an older run's write", "forgets a write in flight behind a run that counts none", "keeps an entry behind a fault",
    "leaves an entry whole where a check has found one write", "tells a block twice", "spells its table by run", "empties the entry of an unread block",
)


def ledgers_in_stories():
    """Drive and the reading answer alike, with lines of each kind."""
    os.environ.setdefault("REAL_DRIVE", os.environ["DRIVE"])
    counts, found = tell_stories(COUNT, 1)
    tell("the first story that differs", found, None)
    tell("lines of each kind", [kind for kind in KINDS if not counts[f"{kind} lines"]], [])
    tell("honest disks, lost states and ledgers that are refused", [what for what in ("honest stories", "lost states", "refused ledgers") if counts[what] < COUNT // 10], [])


def ledgers_with_bugs():
    """Each planted bug is found: so the comparison can fail."""
    drive = os.environ["DRIVE"]
    os.environ.setdefault("REAL_DRIVE", drive)
    with tempfile.TemporaryDirectory(prefix="ledger-") as work:
        for plant in (it for it in PLANTS if it.name in TRIED):
            os.environ["DRIVE"] = planted_in(f"{work}/{PLANTS.index(plant)}", plant)
            found = tell_stories(MOST, 1)[1]
            tell(f"a reading that {plant.name} is found", found is not None, True)
    os.environ["DRIVE"] = drive
    tell("all of those were tried", len([it for it in PLANTS if it.name in TRIED]), len(TRIED))
