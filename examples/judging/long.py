"""Judges a long script, to see that no step takes longer to judge than one before it.

Its runs stand in a row, each with a state and some checks, and behind them runs that are begun and
no more. A script that is four times as long has to take about four times as long: eight times is
taken for too long, and sixteen it would be where a judge goes through all steps for each.
"""

import time

from judging.judge import judge

CHECKS, FACTOR = 6, 4
RUNS, BEGINS = 500, 2500  # with 6 checks of each run, 3,000 begins and as many checks
WRITES = "[a]\nrw=write\nbs=512\nsize=1k\n.\n"
READS = "[a]\nrw=read\nbs=512\nsize=1k\nverify_state_load=1\n.\n"


def long_script(runs, begins):
    """A script of so many runs, and of so many that are begun alone."""
    lines, frame = ["servers 1\n"], 0
    for run in range(1, runs + 1):
        lines.append("begin\n" + WRITES)
        lines += [f"deliver {frame + it}\n" for it in (0, 1, 2)]
        lines += ["issue 0 0\n", "land 0 0 0 all\n", "done 0 0 0\n", f"trigger {run}\n"]
        lines += [f"deliver {frame + it}\n" for it in (4, 5, 6)]
        frame += 7
        for _ in range(CHECKS):
            lines.append(f"verify {run}\n" + READS)
            lines += [f"deliver {frame + it}\n" for it in (0, 1, 2)]
            lines.append("check 0 0\n")
            frame += 4
    return "".join(lines + [f"begin\n{WRITES}"] * begins)


def seconds_of(printed_by, part):
    """How long a part of the long script takes to judge, and whether all of it is right."""
    script = long_script(RUNS // part, BEGINS // part)
    output = printed_by(script)
    start = time.process_time()
    verdict = judge(script, output)
    seconds = time.process_time() - start
    is_right = not verdict.wrong and verdict.judged["report"] == RUNS // part * CHECKS
    return seconds, is_right


def run_long(printed_by):
    """Judges the long script, and tells whether it is right and took no longer than it may."""
    (short, _), (whole, is_right) = (seconds_of(printed_by, part) for part in (FACTOR, 1))
    good = is_right and whole < 2 * FACTOR * short
    print(f"long: {RUNS * CHECKS} checks and {RUNS + BEGINS} begins in {whole:.1f} s, a fourth "
          f"of them in {short:.1f} s{'' if good else ': TOO LONG, or wrong'}")
    return int(good), int(not good)
