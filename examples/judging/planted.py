"""Plants faults in a good script and in what is printed of it, one at a time.

Each has to be found, by the claim that stands beside it. The states of job 0 are in frames 5 and
15, those of job 1 in 6 and 16, each in the last 136 bytes. Frame 7 says that job 2 has none, and
frame 17 that none is kept of it. Frames 8 to 10 are the acknowledgements, 18 to 20 the reports, and
21 to 23 these again.
"""

from judging.judge import judge
from judging.steps import read_output
from judging.verdict import CLAIMS

GOOD_SCRIPT = """servers 1
begin
[global]
rw=write
bs=1k
size=3k
iodepth=2
[a]
[b]
[c]
verify_state_save=0
.
deliver 0
deliver 1
deliver 2
issue 0 0
issue 0 0
issue 0 1
land 0 0 0 all
done 0 0 0
land 0 1 0 all
done 0 1 0
done 0 1 1
trigger 1 cut
deliver 4
issue 0 1
deliver 7
deliver 5
deliver 6
deliver 8
deliver 9
deliver 10
cut 0
restart 0
verify 1
[global]
rw=read
bs=1k
size=3k
verify_state_load=1
[a]
[b]
[c]
.
deliver 11
deliver 12
deliver 13
deliver 14
deliver 15
deliver 16
deliver 17
check 0 0
check 0 1
check 0 2
deliver 11
"""


class Pair:
    """A script and what is printed of it, to plant a fault in."""

    def __init__(self, script, output):
        self.script, self.output = script, output

    def scripted(self, old, new):
        """Other lines in the script."""
        return Pair(changed(self.script, old, new), self.output)

    def printed(self, old, new):
        """Other lines in the output."""
        return Pair(self.script, changed(self.output, old, new))

    def spelled(self, numbers, place, byte):
        """Another byte at this place from the end of these frames."""
        pair = self
        for number in numbers:
            data = bytearray(pair.frame(number))
            data[-place] = byte
            pair = pair.with_frame(number, bytes(data))
        return pair

    def frame(self, number):
        """The bytes of a frame."""
        return read_output(self.output).frames[number]

    def with_frame(self, number, data):
        """Other bytes of a frame."""
        old, new = (f"frame {number} {spelling.hex()}\n" for spelling in (self.frame(number), data))
        return self.printed(old, new)


def changed(text, old, new):
    """The text with other lines in place of these, which stand there once."""
    if ("\n" + text).count("\n" + old) != 1:
        raise ValueError(f"{old!r} doesn't stand there once")
    return ("\n" + text).replace("\n" + old, "\n" + new)[1:]


def spelled(numbers, place, byte):
    """Plants another byte at this place from the end of these frames."""
    return lambda pair: pair.spelled(numbers, place, byte)


def scripted(old, new):
    """Plants other lines in the script."""
    return lambda pair: pair.scripted(old, new)


def printed(old, new):
    """Plants other lines in the output."""
    return lambda pair: pair.printed(old, new)


REPORT = "ok report checked 1 faults 0 end whole first -\nsent 18 0 client Report 57\n"


def blamed(pair):
    """Plants a state that counts the write in flight too, and a report of the fault that this
    makes."""
    pair = pair.spelled((5, 15), 25, 3)
    data = pair.frame(18)
    tail = bytes((0, 0, 0, 2, 0, 0, 0, 1, 0, 0, 0, 1, 0, 0, 0, 1))
    pair = pair.with_frame(18, data[:15] + bytes([45]) + data[16:-12] + tail)
    return pair.printed(REPORT, "ok report checked 2 faults 1 end whole first 1\n"
                        "sent 18 0 client Report 61\n")


# Each setting, with a place from the end where another byte makes it another one.
SETTINGS = (("order", 116, 1), ("verify", 115, 1), ("pattern", 114, 1), ("bs", 110, 2),
            ("blocks", 105, 4), ("total", 97, 4), ("seed", 89, 9), ("depth", 85, 1),
            ("window", 81, 3))

PLANTED = (
    ("a counted write more", "count", spelled((5, 15), 25, 3)),
    ("a counted write less", "count", spelled((5, 15), 25, 0)),
    ("an issued write more", "issued", spelled((6, 16), 73, 2)),
    ("a write that was given told as held", "issued",
     printed("ok write 1 block 1\n", "ok held\n")),
    *((f"another {name} in a state", "settings", spelled((5, 15), place, byte))
      for name, place, byte in SETTINGS),
    ("a job file with another depth", "settings", scripted("iodepth=2\n", "iodepth=3\n")),
    ("another state in a Saved", "state", spelled((15,), 65, 1)),
    ("another state in a State", "state", spelled((6,), 65, 1)),
    ("a write that is given behind the taking", "quiet",
     printed("ok stopped\n", "ok write 1 block 1\n")),
    ("a report with a block less", "report", lambda pair: pair.spelled((18,), 9, 0).printed(
        REPORT, REPORT.replace("checked 1", "checked 0"))),
    ("a report that isn't that of its frame", "report", spelled((19,), 9, 2)),
    ("a report by a Saved that didn't come", "report", scripted("deliver 15\n", "deliver 9\n")),
    ("a report of a torn block as sound", "report",
     scripted("land 0 0 0 all\n", "land 0 0 0 first 1\n")),
    ("a report of a rotten block as sound", "report", scripted("cut 0\n", "rot 0 1 1 7\n")),
    ("a report by a state of another job", "report",
     scripted("[global]\nrw=read\n", "[global]\nrandseed=9\nrw=read\n")),
    ("a report by a state with another place", "report", spelled((5, 15), 41, 9)),
    ("a Report sent again with a fault more", "told", spelled((21,), 5, 1)),
    ("a Report sent again of another attempt", "told", spelled((21,), 26, 9)),
    ("a NoSaved of a state that was acknowledged", "none", spelled((17,), 1, 0)),
    ("a fault on an honest disk", "honest", blamed),
    ("a fault where no write is torn", "whole", blamed),
    ("a State without a Trigger", "taking", scripted("deliver 4\n", "deliver 3\n")),
    ("a State of a run without a Start", "taking", scripted("deliver 2\n", "deliver 1\n")),
    ("a cut before the last StateAck", "cut",
     printed("ok\nok\nact cut 0\n", "ok\nact cut 0\nok\n")),
    ("a cut without the last StateAck", "cut", scripted("deliver 10\n", "deliver 9\n")),
    ("a cut that no Trigger ordered", "order", spelled((4,), 1, 0)),
    ("a StateAck of a job of which nothing came", "ack", spelled((8,), 1, 5)),
    ("a StateAck by a NoState of a job that has a state", "ack",
     lambda pair: pair.spelled((7,), 5, 0).spelled((8,), 1, 0)),
    ("a begin that sends its jobs told as refused", "refused",
     printed("ok run 1\n", "refused 60 Old\n")),
    ("a done that was refused told as ok", "count", printed("refused 83 NoWrite\n", "ok\n")),
    ("a done of a write that wasn't given told as ok", "unknown",
     printed("refused 83 NoWrite\n", "ok\n")),
    ("a frame of another kind", "frames",
     printed("sent 8 client 0 StateAck 28\n", "sent 8 client 0 StateOk 28\n")),
    ("a frame that isn't shown", "output", lambda pair: pair.printed(
        f"frame 8 {pair.frame(8).hex()}\n", "")),
)


def run_planted(output):
    """Plants each fault in the good script and this output of it, and tells how many are found, and
    how many aren't."""
    good = Pair(GOOD_SCRIPT, output)
    verdict = judge(good.script, good.output)
    if not verdict.is_good() or set(verdict.judged) != set(CLAIMS):
        print(f"planted: the good pair isn't one: {verdict.line()}")
        return 0, len(PLANTED)
    passed = 0
    for name, claim, plant in PLANTED:
        bad = plant(good)
        wrong = judge(bad.script, bad.output).wrong
        is_found = claim in [found for found, _ in wrong]
        passed += is_found
        print(f"planted {name}: {'found' if is_found else 'NOT FOUND'}: "
              f"{'; '.join(why for found, why in wrong if found == claim or not is_found)}")
    return passed, len(PLANTED) - passed
