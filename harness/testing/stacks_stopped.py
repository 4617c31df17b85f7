"""Series of harness/matrix that are stopped in the middle and go on, without a virtual machine: programs
stand for qemu, nbdkit and socat (false_machine.py). And when all lose their power behind a disk that fell."""
import os
import signal
import sys
import threading
import time

import machine
import series
from sittings import lines_of
from stack import plain
from trying import AGENT, HERE, LIAR, await_that, tell, write

CUTS, FALSE = 2, "qemu-system-x86_64 nbdkit socat"
# A machine that is killed shows no new start here: so what --off says is taken.
TRUSTED = {"all": ("off", "on", ["--trust-off"]), "member": ("member_off", "on", ["--trust-off"])}


def without_machines():
    """Has series go by false programs, and make no file system for a kernel. Their cuts come soon."""
    os.makedirs("false", exist_ok=True)
    for name in FALSE.split():
        os.symlink(f"{HERE}/false_machine.py", f"false/{name}")
    os.makedirs("kernel/boot")
    write("kernel/boot/vmlinuz-6.1", "")
    os.environ.update(PATH=f"{os.path.abspath('false')}:{os.environ['PATH']}", KERNEL="kernel", AGENT=AGENT, LIAR=LIAR)
    machine.pack = lambda folder, archive: write(archive, "")
    machine.FALLEN_SECONDS = 0, 0.1
    series.make_root = lambda work, *more: write(f"{work}/base.cpio", "")
    series.EVERY, series.CUTS = "0.3..0.5", {**series.CUTS, **TRUSTED}
    series.Series.fio = lambda self: []


def begun(stack, folder):
    """A series of cuts in a process of its own, as harness/matrix runs it."""
    number = os.fork()
    if number:
        return number
    status = 70
    try:
        nothing = os.open("/dev/null", os.O_WRONLY)
        os.dup2(nothing, 1), os.dup2(nothing, 2)
        signal.signal(signal.SIGTERM, lambda *_: sys.exit(70))
        status = 0 if series.Series(stack, folder, CUTS).run() else 1
    finally:
        os._exit(status)


def ended(number):
    return os.waitstatus_to_exitcode(os.waitpid(number, 0)[1])


def stopped_stacks():
    """A series that is stopped within its second run goes on where it was: over the same disks, each of
    which has its power once, and what each held at a cut is checked by the state of that cut."""
    without_machines()
    for cut in ("all", "disks", "member"):
        stack, folder = plain("scsi"), f"stopped-{cut}"
        stack.cut, stack.each = cut, cut != "disks"
        stack.disks += ["scsi"] * (cut == "member")
        number = begun(stack, folder)
        await_that(lambda: len(lines_of(f"{folder}/series")) == 1, f"{cut}: a first cycle")
        time.sleep(0.2)
        os.kill(number, signal.SIGTERM)
        tell(f"{cut}: it is stopped", (ended(number), len(lines_of(f"{folder}/series"))), (70, 1))
        tell(f"{cut}: it goes on, and comes to what is due", ended(begun(stack, folder)), 0)
        lines = lines_of(f"{folder}/series")
        tell(f"{cut}: no fault, over the same disks", [(it["cycle"], it["faults"], it["checked"] > 0) for it in lines], [(at + 1, 0, True) for at in range(CUTS)])
        tell(f"{cut}: no disk was started while it had power", os.path.exists(f"{folder}/machine/twice"), False)
        if stack.each:
            it = series.Series(stack, folder, CUTS)
            found = [it.check(0, at + 1) for at in range(CUTS)]
            tell(f"{cut}: what a disk held at each cut is by the state of that cut", [report and report[2] for report in found], ["0"] * CUTS)


def fallen_disks():
    """All lose their power once writes go on behind the fall of a disk, and not while the system tries
    again."""
    os.makedirs("fallen")
    write("fallen/disk0", "")
    machine.FALLEN_SECONDS = 0, 0
    it, written, at_cut = machine.Machine("fallen", "kernel"), [], []
    it.off = lambda: at_cut.append(len(written))

    def go_on():
        time.sleep(1.5)
        while not at_cut:
            written.append(os.utime("fallen/disk0"))
            time.sleep(0.02)

    writer = threading.Thread(target=go_on)
    writer.start()
    it.member_off()
    writer.join()
    tell("so many writes went on", at_cut[0] >= machine.FALLEN_WRITES, True)
