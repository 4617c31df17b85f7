"""Judges all that there is to judge of a script and of what is printed of it."""

from judging.cuts import judge_answers, judge_cuts
from judging.notes import judge_keeping
from judging.numbers import judge_numbers
from judging.reports import judge_reports, judge_told
from judging.story import Story
from judging.takings import judge_states
from judging.unknown import judge_unknown
from judging.verdict import Unreadable, Verdict


def judge(script, output):
    """The verdict on a script and its output."""
    verdict = Verdict()
    try:
        story = Story(script, output, verdict)
        judge_states(story, verdict)
        judge_cuts(story, verdict)
        judge_answers(story, verdict)
        judge_keeping(story, verdict)
        judge_numbers(story, verdict)
        judge_unknown(story, verdict)
        judge_reports(story, verdict)
        judge_told(story, verdict)
    except (Unreadable, ValueError, IndexError) as why:
        verdict.wrong.append(("output", f"it can't be read: {why}"))
    return verdict
