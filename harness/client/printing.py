"""What a fleet prints: the writes of a run, the reports of a check, and the maps of what is faulty."""
import json
import re
import time

import texts
from mapping import map_job
from say import say
from states import states_in
from stopping import sleep
from stories import FAILED, SOUND, worst_of
from verdicts import UNREAD, WORDS


def print_written(written, as_json):
    """Prints a row for each server and job whose state is kept, and whether all are."""
    form, names = "{:>6} {:>3} {:>10} {:>10} {:>9} {:>9}", ("server", "job", "ordered", "done", "in flight", "a second")
    if written.states and not as_json:
        print(form.format(*names))
    for it in written.states:
        row = (it.server, it.job, it.issued, it.done, it.issued - it.done, round(it.done / max(written.seconds, 0.001)))
        print(json.dumps({"run": written.run, **dict(zip(names, row))}) if as_json else form.format(*row), flush=True)
    if as_json:
        print(json.dumps({"run": written.run, "kept": written.is_kept, "seconds": round(written.seconds, 3), "failure": written.failure}), flush=True)
    else:
        failed = f"; a write has failed: {written.failure}" if written.failure else ""
        print(f"run {written.run}: " + ("the states are kept" if written.is_kept else "not all states are kept") + failed, flush=True)


def print_places(verdict, reports, as_json, map_of=None, rest_of=None):
    """Prints a line for each job at each server, how its check ended, and behind it what a map tells of its
    blocks, where it has faults, or one that can't be read; and what its ledger does. Returns what the
    ledgers told."""
    rests = []
    for it in verdict.places:
        report = reports.get((it.server, it.job)) if it.has_report() else None
        if as_json:
            print(json.dumps(row_of(it, report)), flush=True)
        else:
            print(f"server {it.server} job {it.job}: {told(it, report)}", flush=True)
        for line in map_of(report, not it.is_by_state()) if report and map_of and (it.faults or it.end == UNREAD) else ():
            whose = {"run": it.run, "server": it.server, "job": it.job}
            print(json.dumps({**whose, **block_in(line), "map": line}) if as_json else f"server {it.server} job {it.job}: {line}", flush=True)
        rest = rest_of(it, report) if rest_of else None
        if rest:
            print_rest(it, rest, as_json)
            rest.stage()
            rest.keep()
            rests.append(rest)
    return rests


def print_rest(place, rest, as_json):
    """Prints a line for each block that was lost at rest, or that had to hold something and couldn't be
    read, and how many there are."""
    whose = {"run": place.run, "server": place.server, "job": place.job}
    for line in rest.lines:
        print(json.dumps({**whose, **block_in(line), "ledger": line}) if as_json else f"server {place.server} job {place.job}: {line}")
    print(json.dumps(whose | rest.row()) if as_json else f"server {place.server} job {place.job}: {rest.told()}", flush=True)


def told(place, report):
    """How a check ended at a place, in words."""
    by = "" if place.is_by_state() else "without a state, which is no verdict: "
    return f"{by}report {report.line()}" if report else place.why()


def row_of(place, report):
    row = {"run": place.run, "server": place.server, "job": place.job, "by_state": place.is_by_state(), "checked": place.checked, "faults": place.faults}
    return row | ({"end": report.end, "first": report.first} if report else {"end": None, "why": place.why()})


def block_in(line):
    """The block and the kind that a line of a map is about, where it is about one."""
    found = re.match(r"block (\d+) ([a-z-]+): ", line)
    return {"block": int(found[1]), "kind": found[2]} if found else {}


def maps_of(fleet, job_file, wait=60):
    """Returns what maps the job of a report: it gives the lines of `drive map`, none where there can't
    be a map, which is said."""
    states, text = states_in(fleet.kept.read()), texts.reading(job_file)

    def map_of(report, is_full):
        whose = f"server {report.server} job {report.job}"
        state = states.get((report.run, report.server, report.job))
        if is_full or not state:
            say(f"{whose}: no map without its state")
            return []
        lines = map_job(fleet.servers[report.server], state, text, wait)
        if not lines:
            say(f"{whose}: no map: no blocks came, or drive has ended")
        elif report.end == "whole" and not f"{lines[-1]} ".startswith(f"report {report.line()} "):
            say(f"{whose}: its blocks aren't what the check read: {lines[-1]}")
        return lines

    return map_of


def print_total(verdict, as_json, rests=None):
    """Prints what a check came to, in the node's word, or by what the ledgers told in a worse one, and returns
    the status that this is."""
    word = worst_of([verdict.word, *(it.status() for it in rests or ())])
    lost = sum(it.lost for it in rests or ())
    if as_json:
        by_ledgers = {} if rests is None else {"at_rest": lost}
        print(json.dumps({"run": verdict.run, "verdict": WORDS[word], "checked": verdict.checked, "faults": verdict.faults, **by_ledgers, "status": word}), flush=True)
    else:
        by_ledgers = "" if rests is None else f", {lost} lost at rest"
        print(f"run {verdict.run}: {WORDS[word]}, {verdict.checked} checked, {verdict.faults} faults{by_ledgers}", flush=True)
    return word


def print_status(fleet, wait, as_json):
    """Prints a line for each server: whether it answers, which run it has written last, and how that went.
    Returns whether all answer, as a status."""
    until = time.monotonic() + wait
    while time.monotonic() < until and not all(it.came for it in fleet.servers):
        for it in fleet.servers:
            it.ask_ends()
        sleep(0.2)
    sleep(1)
    for it in fleet.servers:
        it.ask_ends()
    sleep(0.5)
    for server, answers in enumerate(fleet.servers):
        row = {"server": server, "answers": answers.came is not None, "why": fleet.links[server].refusal or ""}
        row |= {"run": answers.last_run(), "writes": bool(answers.writes_now())}
        ends = answers.ends_of(row["run"])
        row |= {"done": ends.done if ends else 0, "failed": ends.failed if ends else 0, "failure": ends.why if ends else ""}
        print(json.dumps(row) if as_json else status_line(row), flush=True)
    return SOUND if all(it.came for it in fleet.servers) else FAILED


def status_line(row):
    if not row["answers"]:
        return f"server {row['server']}: no answer" + (f": {row['why']}" if row["why"] else "")
    if not row["run"]:
        return f"server {row['server']}: it has written nothing since it was started"
    failed = f", {row['failed']} failed: {row['failure']}" if row["failed"] else ""
    return f"server {row['server']}: {'writes' if row['writes'] else 'has written'} run {row['run']}, {row['done']} done{failed}"
