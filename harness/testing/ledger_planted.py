"""Bugs that are planted in the reading of ledger_reading.py, so that it is seen that the comparison
of ledger_stories.py can fail: each has to be found within 300 stories."""
import os
import shutil
import tempfile
from collections import namedtuple

import ledger_stories

HERE = os.path.dirname(os.path.realpath(__file__))
MODULES = "ledger_bytes.py", "ledger_entries.py", "ledger_reading.py"
MOST = 300
# A bug: the module, the text that stands there once, and what is put in its place.
Plant = namedtuple("Plant", "name module old new")
BYTES, ENTRIES, READING = MODULES
UNLOOKED = "        if {int(block) for _, block, _ in lines} != self.by_map:\n", "        if False:\n"
PLANTS = [
    Plant("prefers an older run's write", ENTRIES, "    if block in expected.last:\n", "    if block in expected.last and not entry:\n"),
    Plant("keeps an older run's write beside the new one", ENTRIES, "expected.last[block])] + flying", "expected.last[block])] + flying + entry"),
    Plant("forgets a write in flight behind a run that counts none", ENTRIES, "return entry + flying if entry else []", "return entry"),
    Plant("asks for a write in flight where nothing was asked", ENTRIES, "return entry + flying if entry else []", "return entry + flying"),
    Plant("puts writes in flight first", ENTRIES, "return entry + flying if entry else []", "return flying + entry if entry else []"),
    Plant("forgets writes in flight behind one that is counted", ENTRIES, "expected.last[block])] + flying", "expected.last[block])]"),
    Plant("takes a failed write for a counted one", ENTRIES, "if counted is None or seq in counted:", "if counted is None or seq in counted or seq + 1 == issued:"),
    Plant("takes a full pass for none", ENTRIES, "(job.total, None)", "(0, None)"),
    Plant("keeps what a lost run may have written", READING, "        entries = behind_lost_run(order, entries)\n", "        pass\n"),
    Plant("empties all entries behind a lost run", ENTRIES, "[] if block in touched else entry", "[]"),
    Plant("keeps an entry behind a fault", READING, "        if not self.behind[block]:\n", "        if not self.behind[block]:\n            self.behind[block] = entry\n"),
    Plant("leaves an entry whole where a check has found one write", READING, "self.behind[block] = held_of(entry, block, data)", "self.behind[block] = held_of(entry, block, data) and entry"),
    Plant("keeps the first alone of two writes that a block holds", READING, "self.behind[block] = held_of(entry, block, data)", "self.behind[block] = held_of(entry, block, data)[:1]"),
    Plant("tells a block twice", READING, "            self.by_map.add(block)\n            return\n", "            self.by_map.add(block)\n"),
    Plant("tells a run's blocks as at rest", READING, "ran = expected.last.keys()", "ran = frozenset()"),
    Plant("tells the last write of each entry alone", READING, "run {write.row[0]}\" for write in entry)", "run {write.row[0]}\" for write in entry[-1:])"),
    Plant("takes the first write's run for all", READING, "of run {write.row[0]}\" for", "of run {entry[0].row[0]}\" for"),
    Plant("spells its table by run", BYTES, "    return list(dict.fromkeys(write.row for entry in entries for write in entry))", "    return sorted({write.row for entry in entries for write in entry}, reverse=True)"),
    Plant("spells a row for each write", BYTES, "list(dict.fromkeys(write.row for entry in entries for write in entry))", "[write.row for entry in entries for write in entry]"),
    Plant("empties the entry of an unread block", READING, "            self.unread = True\n", "            self.unread = True\n            self.behind[block] = []\n"),
    Plant("counts an unread block as checked", READING, "            self.unread = True\n", "            self.unread = True\n            self.checked += 1\n"),
    Plant("counts an unread block as a fault", READING, "            self.unread = True\n", "            self.unread = True\n            self.faults.append(block)\n"),
    Plant("gives the status of faults where blocks are unread", READING, "2 if end or self.unread else 1 if self.faults else 0", "1 if self.faults else 2 if end or self.unread else 0"),
    Plant("tells unchecked blocks behind the check", READING, "unchecked_line(self.entries)", "unchecked_line(self.behind)"),
    Plant("writes a ledger where the input ended early", READING, "        if not end:\n", "        if True:\n"),
    Plant("takes a part of a block for one that wasn't read", READING, "elif flag == b\"\\1\" and at + 1 + bs <= len(data):", "elif flag == b\"\\1\" and at + bs <= len(data):"),
    Plant("takes any byte before a block", READING, "if flag == b\"\\0\":", "if flag in (b\"\\0\", b\"\\2\"):"),
    Plant("lists all faults", READING, "self.faults[:32]", "self.faults"),
    Plant("sums at-rest lines before others", READING, "torn corrupt unread at-rest\".split()", "torn at-rest corrupt unread\".split()"),
    Plant("tells any stamp", ENTRIES, "return stamp if stamp and can_be(key, job, stamp) else \"unknown\"", "return stamp if stamp else \"unknown\""),
    Plant("takes stamps of other runs for unknown", ENTRIES, "    return stamp.key != key or", "    return stamp.key == key and"),
    Plant("takes a whole write out of its place for torn", ENTRIES, "    return first if data ==", "    return None if data =="),
    Plant("joins pieces of two writes", ENTRIES, "    return next_piece == piece._replace(sector=piece.sector + 1)", "    return next_piece.sector == piece.sector + 1"),
    Plant("tells zeros as a byte", ENTRIES, "if data[0] else \"holds zeros\"", "if True else \"\""),
    Plant("takes a ledger whose digest is another", BYTES, "if hashlib.sha1(data[:-20]).digest() != data[-20:]:", "if False:"),
    Plant("takes another spelling", BYTES, "    if spelled(bs, entries) != data:", "    if False:"),
    Plant("takes a write past its job's last", BYTES, "seq >= job_of(table[place]).total", "seq > job_of(table[place]).total"),
    Plant("takes blocks of another size than the place's", BYTES, " or job_of(table[place]).bs != bs:", ":"),
    Plant("refuses keys past the limits of jobs", BYTES, "key.server < 1 << 32 and key.job < 1 << 32", "key.server < 8 and key.job < 16"),
    Plant("takes runs past the limits", BYTES, "    if not all(map(is_run, table)):", "    if False:"),
    Plant("stamps with another server", READING, "    key = Key(int(words[0]), server, int(words[1]))", "    key = Key(int(words[0]), 0, int(words[1]))"),
]


def swap(path, old, new):
    """Puts text in the place of what stands there once."""
    with open(path, encoding="utf-8") as it:
        text = it.read()
    if text.count(old) != 1:
        raise ValueError(f"{old!r} stands {text.count(old)} times in {path}")
    with open(path, "w", encoding="utf-8") as it:
        it.write(text.replace(old, new))


def planted_in(folder, plant):
    """A stand-in for drive with the bug, in a folder of its own. It doesn't look itself whether it
    agrees with the map: what it writes has to tell."""
    os.mkdir(folder)
    for module in MODULES:
        shutil.copy(f"{HERE}/{module}", folder)
    swap(f"{folder}/{READING}", *UNLOOKED)
    swap(f"{folder}/{plant.module}", plant.old, plant.new)
    return f"{folder}/{READING}"


def try_plants(names):
    """Tells stories to each reading with a bug, or to those of these names, and says how many found
    theirs."""
    os.environ.setdefault("REAL_DRIVE", os.environ["DRIVE"])
    plants, missed = [it for it in PLANTS if not names or it.name in names], 0
    with tempfile.TemporaryDirectory(prefix="ledger-") as work:
        for number, plant in enumerate(plants):
            os.environ["DRIVE"] = planted_in(f"{work}/{number}", plant)
            found = ledger_stories.tell_stories(MOST, 1)[1]
            missed += found is None
            print(f"{plant.name}: " + (f"found by story {found[0]}" if found else "NOT FOUND"), flush=True)
    print(f"{len(plants) - missed} of {len(plants)} planted bugs found within {MOST} stories")
    return 1 if missed else 0
