"""Makes outputs in which a check is told a wrong report: each kind is false by one claim."""

from judging.broken_states import ISSUED, PLACE, flipped
from judging.draft import Draft, spell, spell_report, with_number
from judging.frames import Report
from judging.reports import told_report, ways, what_is_checked


def checks(case):
    """The checks that were told a report: the step, the Report's frame, and the numbers of all
    frames that say the same of it."""
    for at in case.steps("check"):
        sent, job = what_is_checked(case.story, at, told_report(case.story.steps[at].answer))
        if job:
            yield at, sent, [number for _, number, frame in case.frames("Report")
                             if (frame.source, frame.fields) == (sent.source, sent.fields)]


def reported(case, at, sent, numbers, report):
    """A check that is told another report, as are all Reports of it."""
    draft = Draft(case).answer(at, f"ok report {report}")
    for number in numbers:
        draft.frame(number, spell_report(sent, report))
    return draft


def checks_one_more(case):
    """A report tells of a block more than there is to check."""
    for at, sent, numbers in checks(case):
        report = sent.report._replace(checked=sent.report.checked + 1)
        yield reported(case, at, sent, numbers, report)


def checks_one_less(case):
    """A report tells of a block less than there is to check."""
    for at, sent, numbers in checks(case):
        if sent.report.checked:
            report = sent.report._replace(checked=sent.report.checked - 1)
            yield reported(case, at, sent, numbers, report)


def blames_one_more(case):
    """A report blames a block that is sound."""
    for at, sent, numbers in checks(case):
        first = sent.report.first
        block = next(it for it in range(40) if it not in first)
        if sent.report.end == "whole" and len(first) < 32:
            report = Report(sent.report.checked, sent.report.faults + 1, "whole",
                            tuple(sorted([*first, block])))
            yield reported(case, at, sent, numbers, report)


def passes_a_fault_over(case):
    """A report doesn't blame a faulty block."""
    for at, sent, numbers in checks(case):
        if sent.report.faults:
            report = Report(sent.report.checked, sent.report.faults - 1, "whole",
                            sent.report.first[1:])
            yield reported(case, at, sent, numbers, report)


def blames_another(case):
    """A report blames a block that is sound in place of a faulty one."""
    for at, sent, numbers in checks(case):
        first = sent.report.first
        if first:
            block = next(it for it in range(40) if it not in first)
            report = sent.report._replace(first=tuple(sorted([*first[1:], block])))
            yield reported(case, at, sent, numbers, report)


def ends_otherwise(case):
    """A report says that its check ended at a fault, or at none."""
    for at, sent, numbers in checks(case):
        end = "fault" if sent.report.end == "whole" else "whole"
        yield reported(case, at, sent, numbers, sent.report._replace(end=end))


def of_an_attempt_never_asked(case):
    """The Report of a check is of an attempt that nobody asked for."""
    for at, sent, numbers in checks(case):
        yield Draft(case).frame(numbers[0], spell_report(sent, sent.report, attempt=99))


def of_another_run(case):
    """The Report of a check is of another run than its attempt was asked for."""
    for at, sent, numbers in checks(case):
        run = sent.fields["run"] + 1
        yield Draft(case).frame(numbers[0], spell_report(sent, sent.report, run=run))


def of_another_job(case):
    """The Report of a check is of another job than was checked."""
    for at, sent, numbers in checks(case):
        job = (sent.fields["job"] + 1) % 16
        yield Draft(case).frame(numbers[0], spell_report(sent, sent.report, job=job))


def of_another_server(case):
    """The Report of a check is sent by another server."""
    for at, sent, numbers in checks(case):
        other = sent._replace(source=str((int(sent.source) + 1) % 8))
        yield Draft(case).frame(numbers[0], spell_report(other, sent.report))


def goes_by_a_state_of_more_writes(case):
    """A check goes by a state that tells of more writes than its job has."""
    for at, sent, numbers in checks(case):
        key = (sent.fields["run"], int(sent.source), sent.fields["job"])
        job = what_is_checked(case.story, at, sent.report)[1]
        states = ways(case.story, at, sent.fields, job)
        more = job.settings.total + 1
        if None not in states and more <= states[0].settings.window:
            yield Draft(case).state(key, with_number(states[0].spelling, ISSUED, more))


def goes_by_a_state_that_does_not_fit(case):
    """A check goes by a state with another place of the generator than its job has."""
    for at, sent, _ in checks(case):
        key = (sent.fields["run"], int(sent.source), sent.fields["job"])
        job = what_is_checked(case.story, at, sent.report)[1]
        if None not in ways(case.story, at, sent.fields, job):
            spelling = case.story.seen[key][1].state.spelling
            yield Draft(case).state(key, flipped(spelling, PLACE + 7))


def hides_behind_a_run_that_nobody_began(case):
    """A server says that a run which nobody began has started, and reports a block more."""
    for at, sent, numbers in checks(case):
        for step, number, frame in case.frames("JobsOk"):
            if step < at and frame.source == sent.source:
                report = sent.report._replace(checked=sent.report.checked + 1)
                started = spell("Started", sent.source, "client", 99)
                yield reported(case, at, sent, numbers, report).frame(number, started)


BROKEN_REPORTS = (
    ("report", checks_one_more),
    ("report", checks_one_less),
    ("report", blames_one_more),
    ("report", passes_a_fault_over),
    ("report", blames_another),
    ("report", ends_otherwise),
    ("report", of_an_attempt_never_asked),
    ("report", of_another_run),
    ("report", of_another_job),
    ("report", of_another_server),
    ("report", goes_by_a_state_of_more_writes),
    ("report", goes_by_a_state_that_does_not_fit),
    ("report", hides_behind_a_run_that_nobody_began),
)
