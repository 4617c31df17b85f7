"""The texts of a job file: as it writes, and as the check of such a run reads."""
import os
import re
import shutil
import subprocess
import threading

from note import Refused
from stopping import sleep

FROM_FIO = os.path.join(os.path.dirname(os.path.realpath(__file__)), "../../examples/from-fio")


def writing(path):
    try:
        with open(path, "rb") as it:
            return it.read()
    except OSError as error:
        raise Refused(f"{path}: {error.strerror}") from None


def reading(path):
    """Returns the text by which a run that this file wrote is checked."""
    ran = subprocess.run([FROM_FIO, "--read"], input=writing(path), stdout=subprocess.PIPE, stderr=subprocess.PIPE)
    if ran.returncode:
        raise Refused(f"{path}: {ran.stderr.decode(errors='replace').strip()}")
    return ran.stdout


class Total:
    """What `fiocut jobs` tells of a text: of each job how large its blocks are and how many there are, and
    how many writes all have together."""

    def __init__(self, text):
        self.text, self.jobs, self.value, self.refusal = text, [], None, ""
        self.program = os.environ.get("FIOCUT") or shutil.which("fiocut") or ""
        self.thread = threading.Thread(target=self.ask, daemon=True)
        self.thread.start()

    def ask(self):
        try:
            ran = subprocess.run([self.program, "jobs"], input=self.text, stdout=subprocess.PIPE, stderr=subprocess.DEVNULL)
        except OSError:
            return
        if ran.returncode == 0:
            rows = [[int(it) for it in row] for row in re.findall(rb"^job (\d+) .* blocks=(\d+) total=(\d+) bs=(\d+)", ran.stdout, re.M)]
            self.jobs = [(job, size, blocks) for job, blocks, _, size in rows]
            self.value = sum(total for _, _, total, _ in rows)
        else:
            self.refusal = ran.stdout.decode(errors="replace").strip()

    def await_jobs(self):
        while self.thread.is_alive():
            sleep(0.001)
        if self.refusal:
            raise Refused(f"the job file: {self.refusal}")
        if not self.jobs:
            raise Refused(f"{self.program or 'fiocut'}: it tells no job: FIOCUT has to name the program, and the file has to have jobs")

    def wishes(self):
        """What a server is asked of each job, before it writes."""
        return self.jobs

    def __call__(self):
        return self.value
