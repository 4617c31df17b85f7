"""A series of cuts of a stack, and the row that it comes to."""
import json
import os
import random
import re
import shutil
import subprocess
import time

import fio
from board import Board
from machine import HARNESS, Machine, add_program, make_root
from modules import version_of
from sittings import lines_of, read, sit

JOB = "[a]\nrw=randwrite\nbs=4k\nsize=4m\nio_size=3g\niodepth=8\n"
EVERY, FIO_CUTS = "0.3..3", 2
# Which words of the board cut and give the power, by who is cut, and what the witness is told of that.
CUTS = {"all": ("off", "on", []), "disks": ("disk_off", "disk_on", ["--drive-only"]), "member": ("member_off", "on", [])}


def first_line(words):
    """What a program says first of its version."""
    if not shutil.which(words[0]):
        return f"{words[0]}: none"
    said = subprocess.run(words, stdout=subprocess.PIPE, text=True).stdout.splitlines()
    return re.sub(r" *\(.*|emulator version ", "", said[0]) if said else "not known"


def kinds_of(lines):
    """How many faults there are of each kind, the most first."""
    words = {word for it in lines for word in it["kinds"]}
    return dict(sorted(((word, sum(it["kinds"].get(word, 0) for it in lines)) for word in words), key=lambda it: -it[1]))


class Series:
    """The cuts of a stack, in a folder: its disks, and the series of the witness. Where it was stopped it
    goes on."""

    def __init__(self, stack, folder, cuts, agents=""):
        self.stack, self.folder, self.cuts, self.agents = stack, os.path.abspath(folder), cuts, agents
        self.work, self.series = f"{self.folder}/machine", f"{self.folder}/series"
        for name, file in (("FIOCUT", "crates/fiocut/out/fiocut"), ("DRIVE", "crates/drive/out/drive")):
            os.environ[name] = os.path.abspath(os.environ.get(name, f"{os.path.dirname(HARNESS)}/{file}"))

    def run(self):
        """Cuts so often, writes the row, and returns whether it is what is due."""
        began = time.monotonic()
        machine = self.made_machine()
        try:
            with Board(machine) as board:
                status = self.cut(machine, board)
        finally:
            machine.stop()
        row = self.row(status)
        row["members"] = self.members() if self.stack.each else []
        row["fio"] = self.fio()
        with open(f"{self.folder}/row.json", "w", encoding="utf-8") as it:
            json.dump(row, it)
        wrong = self.wrong(row)
        print(f"{self.stack.name}: {row['cuts']} cuts, {row['faults']} faults of {row['checked']} blocks in {row['faulty']} cuts; {(time.monotonic() - began) / 60:.1f} minutes{''.join('; WRONG: ' + it for it in wrong)}", flush=True)
        return not wrong

    def made_machine(self):
        """The machine, with new disks unless the series was begun with those that are there."""
        machine = Machine(self.work, os.path.abspath(os.environ["KERNEL"]))
        shutil.rmtree(f"{self.work}/root", ignore_errors=True)
        os.makedirs(self.work, exist_ok=True)
        make_root(self.work, machine.kernel, JOB, [self.stack], self.agents)
        with open(f"{self.folder}/job.fio", "w", encoding="ascii") as it:
            it.write(JOB)
        machine.make_ready(self.stack, "do=agent options=" + self.stack.options().replace(" ", ","))
        if not os.path.exists(f"{self.series}/settings"):
            machine.give_new_disks(self.stack.size)
        if os.path.exists(f"{self.work}/switch"):
            os.remove(f"{self.work}/switch")
        return machine

    def cut(self, machine, board):
        """Has the witness go through the cuts, and returns its status."""
        off, on, more = CUTS[self.stack.cut]
        words = [f"{HARNESS}/out/drive-witness", "cycle", f"{self.folder}/job.fio", self.series, "--link", f"exec socat - TCP:127.0.0.1:{machine.port}"]
        words += ["--off", board.command(off), "--on", board.command(on), "--keep-going", "--every", EVERY, "--cycles", str(self.cuts), *more]
        goes_on = os.path.exists(f"{self.series}/settings")
        if not goes_on or self.stack.cut == "disks":
            machine.on()  # (else the witness has it give the power first)
        machine.number = (lambda: len(lines_of(self.series)) + 1) if self.stack.each else None
        return sit(self.work, board, words + ["--resume"] * goes_on)

    def row(self, status):
        """What the series came to, by the lines of its cycles."""
        lines = lines_of(self.series)
        cuts = [it for it in lines if it["cut"] != "none"]
        versions = {"kernel": version_of(os.environ["KERNEL"]), "qemu": first_line(["qemu-system-x86_64", "--version"]), "nbdkit": first_line(["nbdkit", "--version"])}
        return {
            "stack": self.stack.name, "date": time.strftime("%Y-%m-%d"), **versions, "status": status, "cuts": len(cuts), "cycles": len(lines),
            "flying": sum(it["in_flight"] > 0 for it in cuts), "in_flight": sum(it["in_flight"] for it in cuts), "told": sum(it["told"] for it in lines),
            "checked": sum(it["checked"] for it in lines), "faults": sum(it["faults"] for it in lines), "faulty": sum(it["faults"] > 0 for it in lines),
            "at_rest": sum(it.get("at_rest", 0) for it in lines), "ways": sorted({it["way"] for it in lines}),
            "kinds": kinds_of(lines),
        }

    def fio(self):
        """What fio tells of so many cuts of the same stack, over disks of its own. It is asked once."""
        path = f"{self.folder}/fio.json"
        if os.path.exists(path):
            return json.loads(read(path))
        told = self.ask_fio()
        with open(path, "w", encoding="utf-8") as it:
            json.dump(told, it)
        return told

    def ask_fio(self):
        if self.stack.promise.split()[0] == "files":
            return []  # (it has no such job)
        machine = Machine(f"{self.folder}/fio", os.path.abspath(os.environ["KERNEL"]))
        os.makedirs(machine.work, exist_ok=True)
        add_program(machine.work, f"{self.work}/base.cpio", "fio")
        try:
            return [fio.answer(machine, self.stack, random.randint(1, 3)) for _ in range(FIO_CUTS)]
        finally:
            machine.stop()

    def members(self):
        """What each disk holds by itself, by the states of the cycles: for each how many blocks were checked,
        how many are faults, and in how many cuts."""
        found = []
        for at in range(len(self.stack.disks)):
            said = [self.check(at, cycle + 1) for cycle in range(self.cuts)]
            reports = [(int(it[1]), int(it[2])) for it in said if it]
            found.append({"checked": sum(it[0] for it in reports), "faults": sum(it[1] for it in reports), "faulty": sum(it[1] > 0 for it in reports)})
        return found

    def check(self, at, cycle):
        """The report of the copy of a disk that was kept at the cut of a cycle."""
        words = [f"{HARNESS}/out/drive-target", "check", f"{self.folder}/job.fio", f"{self.work}/cut-{cycle}-disk{at}", f"{self.series}/cycle-{cycle:06}.state", "--cached", "--other-drive"]
        ran = subprocess.run(words, stdout=subprocess.PIPE, stderr=subprocess.STDOUT, text=True)
        return re.search(r"^report checked (\d+) faults (\d+)", ran.stdout, re.M)

    def wrong(self, row):
        """What isn't as it has to be."""
        due = self.stack.due
        is_faulty = row["faulty"] > 0 if due == "any" else due != "sound"
        found = {
            f"there are {row['cycles']} cycles, and {row['cuts']} cuts": not self.cuts == row["cycles"] == row["cuts"],
            "a cut has no faults": due == "faulty" and row["faulty"] != row["cycles"],
            "no cut has faults": due == "some" and not row["faulty"],
            "there are faults": not is_faulty and row["faults"],
            "nothing was checked": not row["checked"],
            "no write was in flight": not row["flying"],
            f"the status is {row['status']}": row["status"] != int(is_faulty),
        }
        return [it for it, is_wrong in found.items() if is_wrong]
