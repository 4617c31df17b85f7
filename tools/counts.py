"""What a part of the gate comes to, by what it prints and its status."""
import re

import skips

COUNTS = re.compile(r"(\d+) passed, (\d+) failed(?:, (\d+) skipped)?")


def counts_of(lines, status):
    """Returns what passed, failed and was skipped of a part, by the last of its lines that tells, and
    what is wrong with what it skipped, which counts as failed. A part that failed has at least one
    failure, and one that tells nothing and didn't fail has passed."""
    told = [found for found in map(COUNTS.match, lines) if found]
    passed, failed, skipped = (int(it or 0) for it in told[-1].groups()) if told else (int(not status), 0, 0)
    wrong = skips.wrong_among(lines, skipped)
    return (passed, (max(failed, 1) if status else failed) + len(wrong), skipped), wrong
