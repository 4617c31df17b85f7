"""What was lost at rest: behind a check of a fleet each job's blocks are checked by its ledger, too, as
`drive ledger` does. docs/FLEET.md says what a ledger asks for."""
import os
import re
import subprocess

import texts
from ledger import Ledger, path_in, put_aside, read_ledger, refuse_damaged, settle_ledger, stage_ledger
from mapping import Drive, find_drive
from note import Refused, last_run, numbers_of
from runs import Runs
from say import say
from states import states_in
from verdicts import FAULTS, NOT_WHOLE, SOUND

# Of what `drive` says: a line of a block that no run has written since an earlier check, the report, and the
# line behind which the ledger stands; and the run whose write a block holds.
AT_REST = re.compile(r"block \d+ (?:at-rest|unread): wants write \d+ of run \d+")
REPORT = re.compile(r"report checked (\d+) faults (\d+) end whole ")
LEDGER = re.compile(rb"^ledger (\d+)\n", re.M)
HELD = re.compile(r", holds write .* of run (\d+)")


def refuse_old_drive():
    """Refuses a `drive` that takes no ledgers, before anything else is done."""
    ran = subprocess.run([find_drive("--ledger"), "ledger-rest", "1", "0"], input=b"", stdout=subprocess.PIPE)
    if ran.stdout.startswith(b"bad command"):
        raise Refused("`drive` is older than this harness, and takes no ledgers: check without --ledger")


def ledgers_of(of):
    """Returns the checks by the ledgers of a folder, or None where none is asked for."""
    if not of.ledger:
        return None
    refuse_old_drive()
    os.makedirs(of.ledger, exist_ok=True)
    refuse_damaged(of.ledger)
    return Ledgers(of)


class Doubt(Exception):
    """Why it isn't known what was written since a ledger was kept."""


class Rest:
    """What a check by a ledger found at one place: its lines, how many blocks were checked, are lost and
    couldn't be read; or why there was none."""

    def __init__(self, lines=(), checked=0, faults=0, why=""):
        self.lines, self.checked, self.why = [it for it in lines if AT_REST.match(it)], checked, why
        self.faults = faults # with those that the last run has written
        self.lost = sum(" at-rest: " in it for it in self.lines)
        self.unread = len(self.lines) - self.lost
        self.path = self.ledger = None

    def status(self):
        return FAULTS if self.lost else NOT_WHOLE if self.unread or self.why else SOUND

    def stage(self):
        """Keeps the new ledger beside the place of the old one."""
        if self.ledger:
            stage_ledger(self.path, self.ledger)

    def keep(self):
        """Has the new ledger, which was staged, stand in its place. What it told is told by then: it is told no
        second time."""
        if self.ledger:
            settle_ledger(self.path)

    def told(self):
        if self.why:
            return f"no check by its ledger: {self.why}"
        return f"by its ledger {self.checked} checked, {self.lost} lost at rest" + (f", {self.unread} unread" if self.unread else "")

    def row(self):
        return {"by_ledger": self.checked, "at_rest": self.lost, "unread_at_rest": self.unread} | ({"no_ledger": self.why} if self.why else {})


class Ledgers:
    """The ledgers of a fleet's servers and jobs, in a folder."""

    def __init__(self, of):
        self.folder, self.note, self.wait, self.runs = of.ledger, of.note, of.wait, None
        self.job_file, self.jobs = of.jobfile, {}

    def refuse_earlier(self, fleet, run):
        """Refuses a check of another run than the last: of the blocks as they are it says too little."""
        if run and run != last_run(fleet.kept.note):
            raise Refused(f"--run {run}: a check by ledgers is of the last run: check it without --ledger")

    def check(self, fleet, place, report):
        """Checks a place by its ledger, behind a check by the state of its last run; None where it wasn't one."""
        note = fleet.kept.read()
        state = states_in(note).get((place.run, place.server, place.job))
        if not place.is_by_state() or not state:
            return None
        self.runs = Runs(self.note) # (each run of a series is in there by then)
        path = path_in(self.folder, place.server, place.job)
        answers = fleet.servers[place.server]
        is_flushed, where = answers.ask_flush(place.job, self.wait)
        if not is_flushed:
            return Rest(why=where)
        old, steps = self.steps(path, fleet, place, state, where)
        rest, data = self.take(steps, old.data if old else b"", state, answers)
        if data:
            generation, run = numbers_of(note)
            rest.path, rest.ledger = path, Ledger(place.server, place.job, state.block_size, state.blocks, fleet.kept.fleet, generation, run, where, data)
            self.tell_strange(place, rest, run)
            if steps[-1][0] == "ledger" and report.end == "whole" and rest.faults != report.faults + rest.lost:
                say(f"server {place.server} job {place.job}: its blocks aren't what the check read: by its ledger {rest.faults - rest.lost} are faulty")
        return rest

    def tell_strange(self, place, rest, run):
        """Says where a block holds a write of a later run than any of this note's."""
        for number in sorted({int(it[1]) for it in map(HELD.search, rest.lines) if it}):
            if number > run:
                say(f"server {place.server} job {place.job}: run {number} is none of this note: if another fleet wrote there since, put {rest.path} aside")

    def steps(self, path, fleet, place, state, where):
        """Returns the ledger that stands there, None for a new one, and what is to be taken into it: a
        command of `drive`, its run, the job's text, and a state where that is given."""
        old = read_ledger(path, place.server, place.job)
        note = fleet.kept.read()
        if old:
            try:
                return old, self.steps_since(old, fleet, note, state, where)
            except Doubt as why:
                put_aside(path, why)
        return None, [self.step_of(state.run, note, state)]

    def steps_since(self, ledger, fleet, note, state, where):
        generation, last = numbers_of(note)
        if (ledger.block_size, ledger.blocks) != (state.block_size, state.blocks):
            raise Doubt(f"it is of {ledger.blocks} blocks of {ledger.block_size} bytes, and this job has {state.blocks} of {state.block_size}")
        runs = self.runs.since((ledger.fleet, ledger.run), fleet.kept.fleet, last)
        if ledger.generation != generation or runs is None:
            raise Doubt("it is by another note, and who may have written since isn't known")
        if ledger.place != where:
            raise Doubt(f"it is of another target, {ledger.place}, and this is {where}")
        steps = [self.step_of(run, note, state) for run in runs]
        return steps or [("ledger-rest", state.run, self.text_of(state.run, state.run), None)]

    def step_of(self, run, note, state):
        """How a run is taken: by its state, or as one whose state was lost."""
        text = self.text_of(run, state.run)
        if text is None:
            raise Doubt(f"which job run {run} had isn't known")
        if text != self.text_of(state.run, state.run) and self.jobs_of(text).get(state.job) != (state.block_size, state.blocks):
            raise Doubt(f"run {run} had other blocks there")
        its = states_in(note).get((run, state.server, state.job))
        return ("ledger", run, text, its.data) if its else ("ledger-lost", run, text, None)

    def text_of(self, run, checked):
        """The text that a run was begun with. Of the one that is checked the job file has it."""
        return self.runs.text_of(run) or (texts.writing(self.job_file) if run == checked else None)

    def jobs_of(self, text):
        """The size of a block, and how many there are, of each job of a text."""
        if text not in self.jobs:
            total = texts.Total(text)
            total.await_jobs()
            self.jobs[text] = {job: (size, blocks) for job, size, blocks in total.jobs}
        return self.jobs[text]

    def take(self, steps, data, state, answers):
        """Has `drive` take each step into a ledger, the last one over the blocks as they are: those before
        it are over none that could be read. Returns what was found, and the new ledger."""
        for number, (command, run, text, its) in enumerate(steps):
            drive = Drive(command, run, state, text, *([its] if command == "ledger" else []), data)
            is_last = number + 1 == len(steps)
            if not is_last:
                drive.give_unread(state.blocks)
            elif not drive.give_all(answers, state, self.wait):
                drive.end()
                return Rest(why="no blocks came"), b""
            lines, data = cut_off(drive.end())
            report = REPORT.match(lines[-1]) if lines else None
            if not (data and report):
                return Rest(why=f"run {run}: drive {command}: {lines[-1] if lines else 'it has ended'}"), b""
        return Rest(lines, int(report[1]), int(report[2])), data


def cut_off(said):
    """Returns the lines that `drive` said, and the ledger behind them, no bytes where it isn't whole."""
    front = LEDGER.search(said)
    data = said[front.end() :] if front else b""
    lines = said[: front.start() if front else len(said)].decode(errors="replace").splitlines()
    return lines, data if front and len(data) == int(front[1]) else b""
