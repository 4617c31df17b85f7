"""What a fleet does: it writes until a trigger, and checks behind the cut."""
import os
import struct
import time

import texts
from note import Refused, last_run
from power import run_command
from progress import Progress
from records import GOOD, TRIGGER
from say import say
from states import states_in
from stopping import STOPS, Stopped, sleep
from verdicts import FAULTS, NOT_WHOLE, NO_VERDICT, SOUND

# What counts first of several statuses: what has failed hides no fault.
FAILED = NOT_WHOLE
WORST = (FAULTS, FAILED, NO_VERDICT, SOUND)


def worst_of(statuses):
    return min(statuses, key=WORST.index, default=NO_VERDICT)


class Trigger:
    """What ends the writing: a file that comes, a first SIGINT or SIGTERM, so many seconds, or so many
    writes, of all servers together, that are done; and that all are done, or one has failed."""

    def __init__(self, file=None, seconds=None, writes=None):
        if file and os.path.exists(file):
            raise Refused(f"{file}: the trigger's file is there already: remove it first")
        self.file, self.seconds, self.writes = file, seconds, writes

    def why(self, progress):
        """Returns why it is pulled by now, or None."""
        seconds, done, total = progress.seconds(), progress.total_done(), progress.total()
        if STOPS.count:
            return "by a signal"
        if progress.failed():
            return f"a write has failed: {progress.failed()}"
        if self.file and os.path.exists(self.file):
            return f"{self.file} is there"
        if self.seconds is not None and seconds >= self.seconds:
            return f"after {self.seconds:g} seconds"
        if self.writes is not None and done >= self.writes:
            return f"{done} writes are done"
        if total and done >= total:
            return f"all {done} writes are done: nothing is in flight"
        return None

    def wait(self, progress):
        while not (why := self.why(progress)):
            progress.step()
            sleep(0.01)
        say(f"triggered: {why}")


def all_good(outcomes):
    return all(it == GOOD for it in outcomes)


def tell_outcomes(fleet, what, outcomes, run):
    say(f"{what}: " + ", ".join(f"server {at} {fleet.stands(at, it, run)}" for at, it in enumerate(outcomes)))


class Written:
    """What a run has come to: how long it wrote, the states that are kept of it, and why one of its writes
    has failed, or nothing."""

    def __init__(self, run):
        self.run, self.is_kept, self.seconds, self.states, self.failure = run, False, 0.0, [], ""

    def total(self, what):
        return sum(getattr(it, what) for it in self.states)

    def is_good(self):
        return self.is_kept and not self.failure


def refuse_unfit(fleet, total, wait):
    """Asks each server whether the jobs fit its targets, before a byte of these is written."""
    total.await_jobs()
    for server, answers in enumerate(fleet.servers):
        why = answers.ask_fit(total.wishes(), wait)
        if why is None:
            raise Refused(f"server {server} doesn't answer: {fleet.links[server].refusal or 'nobody is there'}")
        if why:
            raise Refused(f"server {server}: {why}")


def stop(fleet, run, wait):
    """Has each server stop a run, and returns how that stands at each."""
    fleet.stop(run)
    return fleet.settle("stop", run, wait)


def write(fleet, job_file, trigger, wait=60, acts=False):
    """Writes a run until the trigger, and has its states kept. What couldn't be begun everywhere, or is
    stopped by a second signal, is stopped."""
    text = texts.writing(job_file)
    total = texts.Total(text)
    refuse_unfit(fleet, total, wait)
    written = Written(fleet.begin(text))
    try:
        write_until_kept(fleet, written, total, trigger, wait, acts)
    except Stopped:
        tell_outcomes(fleet, f"run {written.run} is stopped", stop(fleet, written.run, min(wait, 5)), written.run)
        raise
    return written


def write_until_kept(fleet, written, total, trigger, wait, acts):
    run = written.run
    begun = fleet.settle("begin", run, wait)
    tell_outcomes(fleet, f"run {run} is begun", begun, run)
    if not all_good(begun):
        tell_outcomes(fleet, f"run {run} is stopped", stop(fleet, run, min(wait, 5)), run)
        return
    progress = Progress(fleet, run, total, trigger.writes is not None)
    trigger.wait(progress)
    written.seconds = progress.seconds()
    progress.ask()
    fleet.trigger(run, acts)
    kept = fleet.settle("trigger", run, wait)
    progress.tell_last()
    tell_outcomes(fleet, f"the states of run {run}", kept, run)
    written.failure = progress.failed()
    written.states = [it for (of, _, _), it in sorted(states_in(fleet.kept.read()).items()) if of == run]
    written.is_kept = tell_copies(fleet, written.states, wait) and all_good(kept)


def cut(fleet, written, command, acts, cut_anyway, wait):
    """Has the power cut, where all states are kept and no write has failed; else only where that is asked
    for: a cut destroys what could tell why."""
    if not written.is_good() and not cut_anyway:
        if command or acts:
            say("there is no cut" + (f": a write has failed: {written.failure}" if written.failure else ": not all states are kept") + "; --cut-anyway cuts")
        return
    if acts:
        repeat_until_cut(fleet, written.run, wait)
    if command:
        run_command(command, "it didn't cut the power")


def tell_copies(fleet, states, wait):
    """Waits until the mirror keeps these states, too, and returns whether it does."""
    if not fleet.mirror:
        return True
    count = fleet.copies.await_kept({(it.run, it.server, it.job) for it in states}, wait)
    say(f"the mirror keeps {count} of {len(states)} states")
    return count == len(states)


def repeat_until_cut(fleet, run, wait):
    """A server that hasn't heard that its states are kept doesn't ask for its cut, and no tick tells
    it again: a trigger does, each second. Those that are cut by then don't answer it, so that nothing
    is waited for but that the links end."""
    until = time.monotonic() + wait
    again = time.monotonic() + 1
    while any(it.is_up() for it in fleet.links) and time.monotonic() < until:
        if time.monotonic() > again:
            fleet.tell(TRIGGER, struct.pack(">QB", run, True))
            again += 1
        sleep(0.02)


def check(fleet, job_file, run=None, wait=60):
    """Checks a run, the last one where none is said. Returns how that ended, and the reports that came, by
    server and job."""
    run = run or last_run(fleet.kept.read())
    if not run:
        raise Refused("no run was begun yet")
    attempt = fleet.verify(run, texts.reading(job_file))
    tell_outcomes(fleet, f"the check of run {run}", fleet.settle("verify", attempt, wait), run)
    verdict = fleet.ask_verdict(run, attempt)
    return verdict, {(it.server, it.job): it for it in fleet.take_reports() if it.attempt == attempt}
