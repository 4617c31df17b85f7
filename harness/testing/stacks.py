"""Stacks of a virtual machine, without one: what is read of their files, which modules they want, what a
series of cuts comes to, and what is told of the page that has the rows."""
import json
import os

import catalogue
import fio
import series
from modules import in_order
from stack import BLANK, NoStack, plain, read_stack, stacks_in
from sittings import read
from trying import HERE, tell, write

GOOD = "# A disk.\ndisks    scsi scsi\npromise  flush --flush 8\nmake     one\nmake     two\ntarget   /dev/md0\n"
CYCLE = {"cut": "start", "in_flight": 8, "told": 100, "checked": 90, "faults": 0, "at_rest": 0, "kinds": {}, "way": "fua by io_uring"}


def refused_stacks():
    """What is no stack is told with its file, and why."""
    for what, text, due in (
        ("a word", GOOD + "disk scsi\n", "disk is no word of a stack"),
        ("a word twice", GOOD + "disks scsi\n", "disks comes twice"),
        ("a cache", GOOD + "cache forgets\n", "cache is one of keeps loses lies"),
        ("who is cut", GOOD + "cut nobody\n", "cut is one of all disks member"),
        ("what is due", GOOD + "due something\n", "due is one of sound faulty some any"),
        ("each disk", GOOD + "each maybe\n", "each is one of yes no"),
        ("a size", GOOD + "size 64\n", "size is a number of mebibytes, as 64m"),
        ("a size of nothing", GOOD + "size 0m\n", "size is a number of mebibytes, as 64m"),
        ("a disk", GOOD.replace("scsi scsi", "scsi drum"), "disks are of scsi virtio through nvme ide"),
        ("no disks", GOOD.replace("disks    scsi scsi\n", ""), "disks is wanting"),
        ("a promise", GOOD.replace("flush --", "maybe --"), "promise is one of fua flush through files"),
        ("no promise", GOOD.replace("promise  flush --flush 8\n", ""), "promise is wanting"),
        ("nothing that it is", GOOD.replace("# A disk.\n", ""), "a first line that says what it is is wanting"),
    ):
        write("a.stack", text)
        try:
            told = f"it is taken: {read_stack('a.stack')}"
        except NoStack as why:
            told = str(why)
        tell(f"a stack with {what}", told, f"a.stack: {due}")


def read_stacks():
    """What a file says is what its stack has, and what it doesn't say is as a blank one has it."""
    write("two.stack", GOOD)
    it = read_stack("two.stack")
    tell("what it is", (it.name, it.what, it.disks, it.promise), ("two", "A disk.", ["scsi", "scsi"], "flush --flush 8"))
    tell("what is done, in its order", (it.make, it.again, it.why), (["one", "two"], [], ""))
    write("files.stack", GOOD.replace("flush --flush 8", "files --yes"))
    tell("what its agent is asked for", (it.options(), read_stack("files.stack").options()), ("--promise flush --flush 8", "--files --yes"))
    tell("what it doesn't say", (it.cache, it.cut, it.due, it.each, it.size), (BLANK["cache"], "all", "sound", False, 64 << 20))
    tell("its disks, and its target", (it.device(0), it.device(1), it.target), ("/dev/sda", "/dev/sdb", "/dev/md0"))
    tell("a disk alone is its own target", [plain(kind).target for kind in ("virtio", "nvme")], ["/dev/vda", "/dev/nvme0n1"])
    own = stacks_in(f"{os.path.dirname(HERE)}/stacks")
    tell("each of harness/stacks is one", all(it.what and it.promise for it in own.values()) and len(own) > 0, True)
    tell("what starts a stack the first time is done again", [name for name, it in own.items() if bool(it.make) != bool(it.again)], [])


def wanted_modules():
    """Each module comes once, and behind those that it wants; what the kernel has built in is left out."""
    os.makedirs("kernel/lib/modules/6/fs")
    for name, wants in {"top": "middle,low-one", "middle": "low_one", "low-one": "", "other": "top"}.items():
        write(f"kernel/lib/modules/6/fs/{name}.ko", b"\0license=GPL\0depends=" + wants.encode() + b"\0")
    tell("their order", [os.path.basename(it) for it in in_order("kernel", ["other", "middle", "built_in"])], ["low-one.ko", "middle.ko", "top.ko", "other.ko"])


def series_of(due, lines, cuts):
    """The row of a series of these cycles, and what is wrong with it."""
    os.makedirs("s/series", exist_ok=True)
    os.makedirs("kernel/boot", exist_ok=True)
    write("kernel/boot/vmlinuz-6.1", "")
    write("s/series/cycles.jsonl", "".join(json.dumps(it) + "\n" for it in lines))
    stack = plain("scsi")
    stack.due = due
    it = series.Series(stack, "s", cuts)
    os.environ["KERNEL"] = "kernel"
    row = it.row(int(any(line["faults"] for line in lines)))
    return row, it.wrong(row)


def stack_verdicts():
    """A series is as it has to be where each of its cycles was a cut with something to check, one had writes
    in flight, and each had faults, or none, as is due."""
    faulty = {**CYCLE, "faults": 3, "kinds": {"lost": 2, "torn": 1}}
    for what, due, lines, cuts, wrong in (
        ("sound", "sound", [CYCLE] * 3, 3, []),
        ("faulty", "faulty", [faulty] * 3, 3, []),
        ("a fault", "sound", [CYCLE, faulty, CYCLE], 3, ["there are faults", "the status is 1"]),
        ("a cut without faults", "faulty", [faulty, CYCLE, faulty], 3, ["a cut has no faults"]),
        ("a cut without faults, of a stack that loses in some", "some", [faulty, CYCLE, faulty], 3, []),
        ("no cut with faults, of such a stack", "some", [CYCLE] * 3, 3, ["no cut has faults", "the status is 0"]),
        ("faults that its maker tells of", "any", [CYCLE, faulty, CYCLE], 3, []),
        ("none of these", "any", [CYCLE] * 3, 3, []),
        ("a cycle that was none", "sound", [CYCLE, {**CYCLE, "cut": "none"}], 2, ["there are 2 cycles, and 1 cuts"]),
        ("too few", "sound", [CYCLE] * 2, 3, ["there are 2 cycles, and 2 cuts"]),
        ("nothing in flight", "sound", [{**CYCLE, "in_flight": 0}] * 2, 2, ["no write was in flight"]),
        ("nothing checked", "sound", [{**CYCLE, "checked": 0}] * 2, 2, ["nothing was checked"]),
    ):
        tell(f"a series: {what}", series_of(due, lines, cuts)[1], wrong)
    row, _ = series_of("faulty", [faulty, CYCLE, faulty], 3)
    tell("its row", {word: row[word] for word in ("cuts", "flying", "in_flight", "told", "checked", "faults", "faulty", "kinds", "ways", "kernel")}, {"cuts": 3, "flying": 3, "in_flight": 24, "told": 300, "checked": 270, "faults": 6, "faulty": 2, "kinds": {"lost": 4, "torn": 2}, "ways": ["fua by io_uring"], "kernel": "6.1"})


class FakeMachine:
    """A machine that says these words, one at each start."""

    def __init__(self, *says):
        self.says, self.files, self.did, self.work = [*says], [], [], "."

    def give_new_disks(self, size):
        self.files.append("new disks")

    def make_ready(self, stack, does):
        pass

    def add(self, files):
        self.files.append(files.get("fio/state"))

    def on(self):
        self.now = self.says.pop(0)

    def awaits(self, word, seconds):
        self.did.append(word)
        return word in self.now

    def off(self):
        self.did.append("off")

    def kill(self, name):
        self.did.append(f"no {name}")

    def disk_off(self):
        self.did.append("no disks")

    def disk_on(self):
        self.did.append("disks")

    def images(self):
        return ["disk0", "disk1"]

    def said(self):
        return self.now


def answers_of_fio():
    """What fio says of a cut is what is told of it: it goes by the state that it kept, over the same disks."""
    machine = FakeMachine("UP\nFIOSTATE:Zmlv:\n", "UP\nverify: bad\nFIO FAULT\nverify: bad\nverify: worse\nFIO DONE\n")
    tell("faults", fio.answer(machine, plain("scsi"), 1), {"fault": True, "sound": False, "told": 3})
    tell("over the same disks, by its state", machine.files, ["new disks", None, b"fio"])
    tell("none", fio.answer(FakeMachine("FIOSTATE:Zmlv:\n", "\nFIO SOUND\nFIO DONE\n"), plain("scsi"), 1), {"fault": False, "sound": True, "told": 0})
    tell("no state, and so no cut", fio.answer(FakeMachine("nothing"), plain("scsi"), 1), {"why": "nothing"})
    tell("a check that didn't end", fio.answer(FakeMachine("FIOSTATE:Zmlv:\n", "nothing"), plain("scsi"), 1), {"why": "nothing"})


def answers_of_fio_where_some_are_cut():
    """fio is cut as the stack is: a disk falls out while it writes, and then it reads each one by itself,
    too; or all disks lose their power alone, and it reads as they have it again."""
    os.makedirs("bin", exist_ok=True)
    write("disk0", b"y" * fio.REGION)
    write("disk1", b"x" * fio.REGION)
    write("bin/fio", '#!/bin/sh\necho "$2 $(cat local-a-0-verify.state)" >>asked\n[ $2 = --filename=disk0 ]\n')
    os.chmod("bin/fio", 0o755)
    os.environ["PATH"] = f"{os.path.abspath('bin')}:{os.environ['PATH']}"
    stack = plain("scsi")
    stack.cut, stack.each = "member", True
    machine = FakeMachine("FIOSTATE:Zmlv:\n", "\nFIO SOUND\nFIO DONE\n")
    tell("a disk falls out, and has a fault", fio.answer(machine, stack, 0), {"fault": False, "sound": True, "told": 0, "members": [False, True], "apart": 256})
    tell("it falls out while fio writes", machine.did, ["FIO WRITES", "no disk1", "FIO KEPT", "off", "FIO DONE", "off"])
    tell("each disk is read by the state", read("asked"), "--filename=disk0 fio\n--filename=disk1 fio\n")
    write("disk0", b"x" * fio.REGION)
    tell("a disk that fell out, and lacks nothing", fio.answer(FakeMachine("FIOSTATE:Zmlv:\n"), stack, 0), {"why": "nothing was written behind the fall of a disk"})
    stack.cut, stack.each = "disks", False
    machine = FakeMachine("\nFIO ENDED\nFIO FAULT\nverify: bad\nFIO DONE\n")
    tell("disks without power", fio.answer(machine, stack, 0), {"fault": True, "sound": False, "told": 1})
    tell("they have it again once fio has ended", machine.did, ["FIO WRITES", "no disks", "FIO ENDED", "disks", "FIO DONE", "off"])


def rows_of_stacks():
    """The page has a row of each stack, as its file says is due, and of no other."""
    row, _ = series_of("sound", [CYCLE] * 3, 3)
    row |= {"members": [{"checked": 9, "faults": 0, "faulty": 0}, {"checked": 9, "faults": 8, "faulty": 3}], "fio": [{"fault": True}, {"fault": False}, {"why": "?"}]}
    stack = plain("scsi")
    line = catalogue.line_of(stack, row)
    tell("a row", line, f"| `scsi` | A disk. | `fua`, io_uring | 3, 3 with writes in flight (24) | 300 | 270 | 0 of 270 in 0 cuts; each disk by itself: 0 of 9, 8 of 9 | faults in 1 of 2 | 6.1, {row['qemu']}, {row['date']} |")
    wrong = lambda text, **stacks: [*catalogue.wrong_in(stacks, text)]
    other = plain("virtio")
    stack.cut = "disks"
    tell("a row of disks alone", "| 3 of the disks alone, 3 with" in catalogue.line_of(stack, row), True)
    tell("a row of files", "| `fua` | 3 of" in catalogue.line_of(stack, {**row, "ways": ["files: fsync, rename, fsync of the folder"]}), True)
    tell("it is there", wrong(line, scsi=stack), [])
    many = catalogue.line_of(stack, {**row, "faults": 1234, "checked": 5678, "kinds": {"torn": 1234}})
    tell("one of thousands isn't sound", wrong(many, scsi=stack), ["scsi: its row isn't sound"])
    tell("fio that wasn't asked", "| not asked |" in catalogue.line_of(stack, {**row, "fio": []}), True)
    tell("fio without an answer", "| no answer |" in catalogue.line_of(stack, {**row, "fio": [{"why": "?"}]}), True)
    members = [{"fault": False, "members": [False, True]}, {"fault": False, "members": [False, True]}]
    tell("fio of each disk", "| faults in 0 of 2; each disk by itself: in 0 of 2, 2 of 2 |" in catalogue.line_of(stack, {**row, "fio": members}), True)
    tell("one lacks", wrong(line, scsi=stack, virtio=other), ["virtio has no row"])
    tell("one is of no stack", wrong(line), ["scsi has a row, and is no stack"])
    stack.due = "faulty"
    tell("one isn't what is due", wrong(line, scsi=stack), ["scsi: its row isn't faulty"])
    stack.due = "any"
    tell("one may be as it comes", wrong(line, scsi=stack) + wrong(many, scsi=stack), [])
    front = lambda told: f"Of [stacks](docs/CATALOGUE.md):\n\n| Cut |\n|---|\n| a disk | {told} |\n\n| x | 7 of 777 |\n"
    for what, told, due in (("a row", "0 of 270 blocks, 3 of 3 cuts", []), ("none", "1 of 270", ["README tells 1 of 270, and no row does"]), ("no stack", "", ["README tells of no stack"])):
        tell(f"the front page has what {what} has", [*catalogue.unlike(front(told), line)], due)
