"""A series of cycles of a fleet: each writes, has the power cut and given back, and checks."""
import json
import os
import random
import time

from ledger import settle_told
from lives import begin_life, begin_with_room
from note import Refused
from power import run_command
from printing import row_of
from resting import ledgers_of
from say import say
from stopping import STOPS, sleep
from stories import FAILED, SOUND, Trigger, check, worst_of, write

LINES = "cycles.jsonl"


def rows_of(folder):
    """The lines of the cycles that are over; one that was cut short is of none, and is taken away."""
    try:
        with open(f"{folder}/{LINES}", "r+", encoding="utf-8") as it:
            lines = it.read().split("\n")
            it.seek(0)
            it.truncate()
            it.write("".join(line + "\n" for line in lines[:-1]))
    except FileNotFoundError:
        return []
    return [json.loads(line) for line in lines[:-1]]


class Series:
    """The folder of a series: its seed, by which the moments of the triggers are drawn, its lines, and the
    ledgers that it goes by, where it does."""

    def __init__(self, of):
        self.ledgers = ledgers_of(of)
        os.makedirs(of.folder, exist_ok=True)
        self.folder, self.rows = of.folder, rows_of(of.folder)
        if self.rows and not of.resume:
            raise Refused(f"{of.folder}: a series is there already: --resume goes on with it")
        if self.ledgers:
            settle_told(of.ledger, {it["run"] for it in self.rows})
        self.seed = self.rows[0]["seed"] if self.rows else of.seed if of.seed is not None else random.SystemRandom().getrandbits(32)
        least, _, most = of.every.partition("..")
        try:
            self.least, self.most = float(least), float(most or least)
        except ValueError:
            raise Refused(f"--every {of.every}: this wants seconds, as 5..60") from None

    def moment(self, number):
        """The seconds to the trigger of a cycle: the same however often the series was stopped."""
        return random.Random(f"{self.seed} {number}").uniform(self.least, self.most)

    def keep(self, row):
        self.rows.append(row)
        with open(f"{self.folder}/{LINES}", "a", encoding="utf-8") as it:
            it.write(json.dumps(row) + "\n")
            it.flush()
            os.fsync(it.fileno())


def write_and_cut(of, seconds):
    """Writes until the trigger, and has the power cut and given back; where not all is kept there is no
    cut, unless that is asked for. Returns what was written, and whether there was a cut."""
    fleet = begin_with_room(of)
    STOPS.count_first()
    written = write(fleet, of.jobfile, Trigger(None, seconds), of.wait)
    fleet.close()
    STOPS.count_first()
    is_cut = written.is_good() or of.cut_anyway
    if is_cut:
        run_command(of.off)
        sleep(of.pause)
        run_command(of.on)
    return written, is_cut


def by_ledgers(fleet, series, verdict, found):
    """What the ledgers tell behind a check, by server and job; nothing where there are none."""
    if not series.ledgers:
        return {}
    rests = {(it.server, it.job): series.ledgers.check(fleet, it, found.get((it.server, it.job))) for it in verdict.places}
    return {at: it for at, it in rests.items() if it}


def row_of_place(place, found, rests):
    """The row of a place, with a line for each block that was lost at rest: it is told no second time."""
    at = place.server, place.job
    row = row_of(place, found.get(at) if place.has_report() else None)
    return row | (rests[at].row() | {"lines": rests[at].lines} if at in rests else {})


def one_cycle(of, series):
    """A cycle, whose line it keeps and returns. The ledgers are staged before the line, and stand in their
    places behind it: so what they tell is in one line, wherever the client is killed."""
    begun, number = time.monotonic(), len(series.rows) + 1
    seconds = series.moment(number)
    written, is_cut = write_and_cut(of, seconds)
    status, checked, faults, reports, rests = FAILED, 0, 0, [], {}
    if is_cut:
        fleet = begin_life(of)
        verdict, found = check(fleet, of.jobfile, written.run, of.wait)
        rests = by_ledgers(fleet, series, verdict, found)
        fleet.close()
        status = worst_of([verdict.word, SOUND if written.is_good() else FAILED, *(it.status() for it in rests.values())])
        checked, faults = verdict.checked, verdict.faults
        reports = [row_of_place(it, found, rests) for it in verdict.places]
    row = {"cycle": number, "time": time.strftime("%Y-%m-%dT%H:%M:%SZ", time.gmtime()), "seed": series.seed, "trigger_after": round(seconds, 3), "run": written.run}
    row |= {"kept": written.is_kept, "cut": is_cut, "failure": written.failure, "ordered": written.total("issued"), "done": written.total("done")}
    row |= {"checked": checked, "faults": faults, "status": status, "seconds": round(time.monotonic() - begun, 1)}
    row |= {"at_rest": sum(it.lost for it in rests.values())} if series.ledgers else {}
    row["reports"] = reports
    for it in rests.values():
        it.stage()
    series.keep(row)
    for it in rests.values():
        it.keep()
    return row


def told(row, as_json):
    if as_json:
        return json.dumps({name: it for name, it in row.items() if name != "reports"})
    line = "cycle {cycle}: run {run}, {ordered} ordered, {done} done, {checked} checked, {faults} faults".format(**row)
    line += f", {row['at_rest']} lost at rest" if "at_rest" in row else ""
    line += ", status {status}, {seconds} s".format(**row)
    return line + ("" if row["cut"] else ", no cut")


def cycle(of):
    """A line for each cycle as it ends, in the folder, too. It stops at the first that isn't sound, and
    behind the one in which a signal has come; what is stopped within one begins that anew."""
    series = Series(of)
    if of.resume:
        run_command(of.on)
    while len(series.rows) < of.cycles and not STOPS.count:
        row = one_cycle(of, series)
        print(told(row, of.json), flush=True)
        if row["status"] != SOUND and not of.keep_going:
            break
    if STOPS.count:
        say("the series ends, by a signal; --resume goes on with it")
    return worst_of([it["status"] for it in series.rows])
