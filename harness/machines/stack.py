"""What lies under a target in a virtual machine: its disks, the caches of these, what is laid over
them, and what that promises. A stack is a file of harness/stacks, of some ten lines:

    # A sentence that says what it is.
    disks    scsi scsi      the kinds of its disks, a word of DISKS for each
    cache    loses          what a disk does that loses its power: it keeps what it told as done, loses
                            what wasn't flushed, or lies, and loses what was flushed, too
    modules  raid1          modules of the kernel, beside those of the disks
    tools    mdadm          programs of this machine that it takes along
    make     COMMAND        what is done when the machine starts the first time
    again    COMMAND        and what at each later start
    target   /dev/md0       what is written
    promise  fua            what is asked of it, fua, flush or through, and with it options of drive-agent; or
                            files: then the target is a folder, and each block a file of its own
    cut      all            who loses power: all; disks, and the machine goes on; or all, and once writes
                            go on the second disk alone before them: member
    due      sound          what has to come of it: sound; faulty, where each cut has faults; some, where some
                            cut has: what is lost there may be safe a moment later; or any, where its maker
                            says that a cut may do harm
    why      TEXT           what its maker says of it
    each     yes            each of its disks is checked by itself, too
    size     64m            the bytes of each disk

make, again and why may come several times. A line that is left out is that of BLANK. Of several SCSI disks
/dev/disk0 is the first one, /dev/disk1 the second."""
import os
import re
from dataclasses import dataclass

SCSI = "-device scsi-hd,drive=disk{at},serial=vm{at},dpofua=on,physical_block_size=4096"
CACHES = {"keeps": [], "loses": ["cache=writeback"], "lies": ["cache=unsafe"]}
CUTS, DUE, PROMISES = ("all", "disks", "member"), ("sound", "faulty", "some", "any"), ("fua", "flush", "through", "files")
BLANK = {"cache": "loses", "modules": "", "tools": "", "target": "", "cut": "all", "due": "sound", "each": "no", "size": "64m"}
MANY = ("make", "again", "why")


@dataclass
class Disk:
    """A kind of disk: qemu's words for the bus of all of them, and for each; its name in the machine; what
    the kernel says of it there; and the modules that it wants."""

    bus: str
    words: str
    names: str
    said: str
    modules: str


DISKS = {
    "scsi": Disk("-device virtio-scsi-pci", SCSI, "sd{letter}", "write back, FUA 1", "virtio_pci virtio_scsi sd_mod"),
    "virtio": Disk("", "-device virtio-blk-pci,drive=disk{at},serial=vm{at},physical_block_size=4096", "vd{letter}", "write back, FUA 0", "virtio_pci virtio_blk"),
    "through": Disk("", "-device virtio-blk-pci,drive=disk{at},serial=vm{at},physical_block_size=4096,write-cache=off", "vd{letter}", "write through, FUA 0", "virtio_pci virtio_blk"),
    "nvme": Disk("", "-device nvme,drive=disk{at},serial=vm{at},logical_block_size=4096,physical_block_size=4096", "nvme{at}n1", "write back, FUA 1", "virtio_pci"),
    "ide": Disk("", "-device ide-hd,drive=disk{at},serial=vm{at},physical_block_size=4096", "sd{letter}", "write back, FUA 0", "virtio_pci ata_piix sd_mod"),
}


@dataclass
class Stack:
    """A stack, as its file says it."""

    name: str
    what: str
    disks: list
    cache: str
    modules: list
    tools: list
    make: list
    again: list
    target: str
    promise: str
    cut: str
    due: str
    why: str
    each: bool
    size: int

    def device(self, at):
        """The path of a disk in the machine."""
        return "/dev/" + DISKS[self.disks[at]].names.format(at=at, letter="abcdef"[at])

    def options(self):
        """What its agent is asked for."""
        return f"--{'' if self.promise.split()[0] == 'files' else 'promise '}{self.promise}"

    def all_modules(self):
        return [it for disk in self.disks for it in DISKS[disk].modules.split()] + ["virtio_net", *self.modules]


class NoStack(Exception):
    """A file is no stack."""


def read_stack(path):
    """Reads a stack; NoStack says what is wrong with the file."""
    with open(path, encoding="utf-8") as it:
        lines = it.read().splitlines()
    what = " ".join(line[1:].strip() for line in lines if line.startswith("#"))
    given = {it: [] for it in MANY}
    for line in lines:
        if line.strip() and not line.startswith("#"):
            word, _, rest = line.partition(" ")
            if word not in {*BLANK, *MANY, "disks", "promise"}:
                raise NoStack(f"{path}: {word} is no word of a stack")
            if word not in MANY and word in given:
                raise NoStack(f"{path}: {word} comes twice")
            given[word] = [*given[word], rest.strip()] if word in MANY else rest.strip()
    return made_of(os.path.basename(path).removesuffix(".stack"), what, {**BLANK, **given}, path)


def made_of(name, what, given, path):
    """Makes a stack of the words of its file."""
    for word, known in (("cache", CACHES), ("cut", CUTS), ("due", DUE), ("each", ("yes", "no"))):
        if given[word] not in known:
            raise NoStack(f"{path}: {word} is one of {' '.join(known)}")
    for word, is_there in (("a first line that says what it is", what), ("disks", given.get("disks")), ("promise", given.get("promise"))):
        if not is_there:
            raise NoStack(f"{path}: {word} is wanting")
    if not set(given["disks"].split()) <= set(DISKS):
        raise NoStack(f"{path}: disks are of {' '.join(DISKS)}")
    if given["promise"].split()[0] not in PROMISES:
        raise NoStack(f"{path}: promise is one of {' '.join(PROMISES)}")
    if not re.fullmatch(r"[1-9][0-9]*m", given["size"]):
        raise NoStack(f"{path}: size is a number of mebibytes, as 64m")
    stack = Stack(name, what, given["disks"].split(), given["cache"], given["modules"].split(), given["tools"].split(), given["make"], given["again"], given["target"], given["promise"], given["cut"], given["due"], " ".join(given["why"]), given["each"] == "yes", int(given["size"].removesuffix("m")) << 20)
    stack.target = stack.target or stack.device(0)
    return stack


def stacks_in(folder):
    """Returns the stacks of a folder, by name."""
    names = sorted(it for it in os.listdir(folder) if re.fullmatch(r"[a-z0-9-]+\.stack", it))
    return {it.removesuffix(".stack"): read_stack(f"{folder}/{it}") for it in names}


def plain(disk, lies=False):
    """A stack of one disk, and nothing over it."""
    return made_of(disk, "A disk.", {**BLANK, "disks": disk, "cache": "lies" if lies else "loses", "promise": "fua", **{it: [] for it in MANY}}, disk)
