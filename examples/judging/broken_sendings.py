"""Makes outputs in which Reports are sent that no check was told, or behind a write that came too
late: each kind is false by one claim."""

from judging.broken_reports import checks
from judging.draft import Draft, spell, spell_report


def reports_again(case):
    """The Reports that are sent again: the number and the frame of each."""
    made = {at for at, _, _ in checks(case)}
    return [(number, frame) for at, number, frame in case.frames("Report") if at not in made]


def sent_otherwise_than_told(case):
    """A check sends another report than it is told."""
    for at, sent, numbers in checks(case):
        report = sent.report._replace(faults=sent.report.faults + 1)
        yield Draft(case).frame(numbers[0], spell_report(sent, report))


def sent_of_another_job_than_checked(case):
    """A check sends its report as that of another job."""
    for at, sent, numbers in checks(case):
        job = (sent.fields["job"] + 2) % 16
        yield Draft(case).frame(numbers[0], spell_report(sent, sent.report, job=job))


def sent_again_otherwise(case):
    """A Report that is sent again has a fault more."""
    for number, frame in reports_again(case):
        report = frame.report._replace(faults=frame.report.faults + 1)
        yield Draft(case).frame(number, spell_report(frame, report))


def sent_again_of_another_attempt(case):
    """A Report that is sent again is of another attempt."""
    for number, frame in reports_again(case):
        yield Draft(case).frame(number, spell_report(frame, frame.report, attempt=99))


def sent_again_of_another_run(case):
    """A Report that is sent again is of another run."""
    for number, frame in reports_again(case):
        yield Draft(case).frame(number, spell_report(frame, frame.report, run=99))


def sent_again_of_another_job(case):
    """A Report that is sent again is of another job."""
    for number, frame in reports_again(case):
        yield Draft(case).frame(number, spell_report(frame, frame.report, job=15))


def sent_again_by_another_server(case):
    """A Report that is sent again comes from a server that made no check."""
    for number, frame in reports_again(case):
        yield Draft(case).frame(number, spell_report(frame._replace(source="7"), frame.report))


def reports_what_nobody_checked(case):
    """A Report is sent where no check was made."""
    for _, number, frame in case.frames("JobsOk", "Stopped"):
        numbers = (frame.fields["run"], 1, 15, 16, 0, 0, 7, 0, 0)
        yield Draft(case).frame(number, spell("Report", frame.source, "client", *numbers))


def last_report(case, key, at):
    """The last step with a Report of the run of a key, where that is behind the taking."""
    steps = case.story.says(str(key[1]), "Report", run=key[0])
    return steps[-1] if steps and steps[-1] > at else 0


def gives_behind_the_taking(case):
    """A write is given between a taking and a report."""
    for key, at, _ in case.takings():
        for issue in case.steps("issue", str(key[1])):
            if at < issue < last_report(case, key, at) and not case.story.steps[issue].gives():
                yield Draft(case).answer(issue, "ok write 0 block 0")


def reports_behind_a_write(case):
    """A report of a run is sent behind a write of a later run."""
    for key, at, _ in case.takings():
        server = str(key[1])
        given = [it for it in case.story.writes.by_server[server] if it > at]
        for step, number, frame in case.frames("JobsOk", "Started", "Stopped", "State", "Refused"):
            if frame.source == server and given and step > given[0]:
                numbers = (key[0], 1, key[2], 16, 0, 0, 0, 0, 0)
                yield Draft(case).frame(number, spell("Report", server, "client", *numbers))


BROKEN_SENDINGS = (
    ("told", sent_otherwise_than_told),
    ("told", sent_of_another_job_than_checked),
    ("told", sent_again_otherwise),
    ("told", sent_again_of_another_attempt),
    ("told", sent_again_of_another_run),
    ("told", sent_again_of_another_job),
    ("told", sent_again_by_another_server),
    ("told", reports_what_nobody_checked),
    ("quiet", gives_behind_the_taking),
    ("quiet", reports_behind_a_write),
)
