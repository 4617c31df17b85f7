"""A witness that is run beside a board of switches, for harness/vm: until it has ended, or is killed
within what it does."""
import json
import os
import random
import re
import subprocess
import time

SECONDS_WRITTEN, SECONDS_BEHIND_CUT = 0.3, 8


def read(name):
    with open(name, encoding="utf-8", errors="replace") as it:
        return it.read()


def lines_of(folder):
    """The lines of the cycles that are over by now."""
    if not os.path.exists(f"{folder}/cycles.jsonl"):
        return []
    return [json.loads(line) for line in read(f"{folder}/cycles.jsonl").splitlines(keepends=True) if line.endswith("\n")]


def seen_in(folder):
    """The cycle of a tour that isn't over, and whether its cut was seen; or nothing."""
    found = re.match(r"cycle (\d+) .* cut (\d) ", read(f"{folder}/seen")) if os.path.exists(f"{folder}/seen") else None
    return (int(found[1]), found[2] == "1") if found and int(found[1]) > len(lines_of(folder)) else None


def killing(folder, is_cut):
    """Says, each time it is asked, whether to kill the witness of a tour: at a moment while it writes, or
    behind a cut, in which power is given back and tiles are checked."""
    began, moment = len(lines_of(folder)), []

    def is_over():
        seen = seen_in(folder)
        if not moment and seen and seen[0] > began + 1 and seen[1] == is_cut:
            moment.append(time.monotonic() + random.uniform(0, SECONDS_BEHIND_CUT if is_cut else SECONDS_WRITTEN))
        return bool(moment) and time.monotonic() > moment[0]

    return is_over


def sit(work, board, words, is_over=lambda: False):
    """Serves the board until the witness has ended, or is killed since this is over. What it says goes to
    WORK/told, and what it prints to WORK/printed, and here. Returns its status."""
    with open(f"{work}/told", "ab") as told, open(f"{work}/printed", "ab") as to, open(f"{work}/printed", encoding="utf-8") as printed:
        printed.seek(0, os.SEEK_END)
        with subprocess.Popen(words, stdin=subprocess.DEVNULL, stdout=to, stderr=told) as witness:
            try:
                while witness.poll() is None and not is_over():
                    board.handle_request()
                    print(printed.read(), end="", flush=True)
            finally:
                witness.kill()  # (where it hasn't ended)
        print(printed.read(), end="", flush=True)
    return witness.returncode
