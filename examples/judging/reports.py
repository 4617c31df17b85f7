"""Judges the reports: each is that of what the file holds by then, and each that is sent is one of
a check that was told it.

A server checks a job by a state that came to it and fits, or in a full pass. Where both can be, one
of the reports that these make has to be there.
"""

from judging.checks import Check
from judging.files import Files
from judging.frames import Report
from judging.job_files import job_in
from judging.verdict import Unjudged


def judge_reports(story, verdict):
    """The claims report, honest and whole."""
    files = Files(story)
    for at, step in enumerate(story.steps):
        files.follow(at)
        if step.does("check"):
            try:
                judge_report(story, verdict, files, at)
            except Unjudged as why:
                verdict.leave(" ".join(step.words), why)


def judge_told(story, verdict):
    """The claim told."""
    told = set()
    for at, step in enumerate(story.steps):
        sent = [frame for frame in story.sent[at] if frame.report]
        if step.does("check"):
            told.update(made_of(frame) for frame in sent if frame.report == told_report(step.answer)
                        and [frame.source, str(frame.fields["job"])] == step.words[1:3])
        for frame in sent:
            verdict.judge("told", made_of(frame) in told, f"server {frame.source} sends the report "
                          f"{frame.report}, which no check of that attempt was told")


def made_of(frame):
    """What a Report says: its server, run, attempt and job, and the report."""
    return frame.source, *(frame.fields[it] for it in ("run", "attempt", "job")), frame.report


def told_report(words):
    """The report that an answer tells: `ok report checked C faults F end E first B ..`."""
    place = words.index("first")
    first = tuple(int(word) for word in words[place + 1:] if word != "-")
    return Report(int(words[3]), int(words[5]), " ".join(words[7:place]), first)


def judge_report(story, verdict, files, at):
    """The report of one check."""
    server, number = story.steps[at].words[1:3]
    report = told_report(story.steps[at].answer)
    name = f"server {server} job {number}"
    sent, job = what_is_checked(story, at, report)
    if not job:
        verdict.judge("report", False, f"{name}: no Report is sent of it and of what was asked")
        return
    checks = [Check(files, (sent.fields["run"], server, number), job, state)
              for state in ways(story, at, sent.fields, job)]
    due = [check.report_or_why_not() for check in checks]
    unjudged = [other for other in due if isinstance(other, Unjudged)]
    if report not in due and unjudged:
        raise unjudged[0]
    told = " or ".join(str(other) for other in due) or "none, for no state and no NoSaved came"
    verdict.judge("report", report in due, f"{name}: {report} in place of {told}")
    for check, other in zip(checks, due):
        if report == other:
            check.judge_disk(verdict, name)


def what_is_checked(story, at, report):
    """The Report that a check sends to the client, and the job of the text of its attempt; None
    where there is none of the run that the attempt was asked for."""
    server, number = story.steps[at].words[1:3]
    for frame in story.sent[at]:
        if ((frame.report, frame.source, frame.target) == (report, server, "client")
                and frame.fields["job"] == int(number)):
            asked = story.told_before(at, "verify", frame.fields["attempt"])
            if asked and asked.words[1] == str(frame.fields["run"]):
                return frame, job_in(asked.text, int(number))
    return None, None


def ways(story, at, fields, job):
    """What a check may go by, by the fields of its Report: a state that came to the server, or None
    for a full pass."""
    server = story.steps[at].words[1]
    key = (fields["run"], int(server), fields["job"])
    attempt = fields["attempt"]
    none_came = story.hears(server, "NoSaved", attempt=attempt, job=fields["job"])
    states = []
    for step in story.hears(server, "Saved", attempt=attempt):
        state = story.came[step][0].state
        if step < at and state.fits(key, job.settings) and state not in states:
            states.append(state)
    is_full = not job.load or any(step < at for step in none_came)
    return states + ([None] if is_full else [])
