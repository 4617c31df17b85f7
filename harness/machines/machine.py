"""A virtual machine of qemu with a stack of disks under test, for harness/vm and harness/matrix: what it
boots, and what gives and cuts the power of the machine and of its disks."""
import glob
import os
import random
import re
import shutil
import socket
import subprocess
import sys
import time

from modules import in_order
from stack import CACHES, DISKS

HARNESS = os.path.dirname(os.path.dirname(os.path.realpath(__file__)))
UP_SECONDS, STUCK_SECONDS, STARTS, DISK_BYTES = 300, 20, 5, 64 << 20
FALLEN_SECONDS, FALLEN_WRITES = (0, 2), 20  # until the cut of all, once writes go on behind the fall of a disk
# Linux names SCSI disks as they come, each start anew: /dev/disk0 is the first one of qemu.
INIT = """#!/bin/busybox sh
/bin/busybox --install -s /bin
mount -t proc none /proc && mount -t sysfs none /sys && mount -t devtmpfs none /dev
for word in $(cat /proc/cmdline); do case $word in do=* | disk=* | after=* | options=* | script=*) export "$word" ;; esac done
export options="$(echo "$options" | tr , ' ')" target="$(cat /stack/target)"
for module in $(cat /stack/order); do insmod /modules/$module; done
for device in $(cat /stack/devices); do until [ -b $device ]; do usleep 10000; done; done
for it in /sys/block/sd*; do at=$(readlink $it/device) && at=${at%:*} && ln -s ${it##*/} /dev/disk${at##*:}; done
echo && echo "DISK $(cat /sys/block/$disk/queue/write_cache), FUA $(cat /sys/block/$disk/queue/fua)"
sh -e /stack/$script >/dev/console 2>&1 || echo "NO STACK: $script has failed"
sync
for device in $(cat /stack/devices); do dd if=/dev/null of=$device conv=notrunc,fsync 2>/dev/null; done
ip addr add 10.0.2.15/24 dev eth0 && ip link set eth0 up
echo UP
case $do in
agent) nc -ll -p 7 -e /agent ;;
write) drive-target write /job.fio $target /tmp/state --after $after --keep 'echo "STATE:$(base64 -w 0):"' --cut 'echo CUT; sleep 1000' $options ;;
check) drive-target check /job.fio $target /state $options ;;
fio) sh /fio/run ;;
esac
echo "STATUS $?"
poweroff -f
"""
# A disk that lost its power alone is there again with the first read that is answered.
AGENT = """#!/bin/sh
until [ -d $target ] || dd if=$target of=/dev/null bs=4096 count=1 iflag=direct 2>/dev/null; do usleep 50000; done
exec drive-agent $target $options 2>/dev/console
"""


def copy_program(program, root, name):
    """With the libraries that it wants."""
    shutil.copy(program, f"{root}/bin/{name}")
    said = subprocess.run(["ldd", program], stdout=subprocess.PIPE, text=True).stdout
    for library in re.findall(r"/\S+(?= \()", said):
        os.makedirs(root + os.path.dirname(library), exist_ok=True)
        shutil.copy(library, root + library)


def pack(folder, archive):
    with open(archive, "wb") as to:
        subprocess.run("find . | cpio -o -H newc --quiet", shell=True, cwd=folder, stdout=to, check=True)


def append(archive, path):
    """Appends an archive to one: Linux unpacks both."""
    with open(archive, "rb") as more, open(path, "ab") as to:
        shutil.copyfileobj(more, to)


def write_all(root, texts):
    for name, text in texts.items():
        with open(f"{root}/{name}", "wb") as it:
            it.write(text.encode() if isinstance(text, str) else text)
        os.chmod(f"{root}/{name}", 0o755)


def make_root(work, kernel, job, stacks=(), agents=""):
    """Makes the file system that a machine has in memory, with a job for what runs there alone, and what
    these stacks take along. Where an agent that needs no library is in a folder already, it has that alone."""
    root = f"{work}/root"
    for folder in "bin proc sys dev tmp mnt modules stack".split():
        os.makedirs(f"{root}/{folder}")
    if agents:
        shutil.copy(f"{agents}/drive-agent", f"{root}/bin")
    else:
        subprocess.run([f"{HARNESS}/build", "-static"], env={**os.environ, "OUT": f"{root}/bin"}, check=True)
    shutil.copy("/bin/busybox", f"{root}/bin")
    own = {} if agents else {"fiocut": os.environ["FIOCUT"], "drive": os.environ["DRIVE"]}
    programs = {**own, **{it: shutil.which(it) for stack in stacks for it in stack.tools}}
    for name, program in programs.items():
        copy_program(program, root, name)
    wanted = sorted({it for stack in stacks for it in stack.all_modules()}) or sorted({it for disk in DISKS.values() for it in disk.modules.split()} | {"virtio_net"})
    for path in in_order(kernel, wanted):
        shutil.copy(path, f"{root}/modules")
    write_all(root, {"init": INIT, "agent": AGENT, "job.fio": job})
    pack(root, f"{work}/base.cpio")


def add_program(work, base, name):
    """Makes the base of a machine of that of another one, with a program of this machine besides: fio has
    so many libraries that a machine without them is up in three quarters of the time."""
    root = f"{work}/program"
    shutil.rmtree(root, ignore_errors=True)
    os.makedirs(f"{root}/bin")
    copy_program(shutil.which(name), root, name)
    pack(root, f"{root}.cpio")
    shutil.copy(base, f"{work}/base.cpio")
    append(f"{root}.cpio", f"{work}/base.cpio")


def free_port():
    with socket.socket() as it:
        it.bind(("127.0.0.1", 0))
        return it.getsockname()[1]


def ticks_of(process):
    """The processors' time that a process has taken, in hundredths of a second."""
    with open(f"/proc/{process}/stat", encoding="ascii") as it:
        return sum(map(int, it.read().rpartition(")")[2].split()[11:13]))


class Machine:
    """A virtual machine and its disks, each a process. Its agent answers at a port of this machine."""

    def __init__(self, work, kernel):
        self.work, self.kernel, self.port, self.running = work, kernel, free_port(), {}
        self.disks_said = set()  # by its kernel at each start
        self.number = None  # where a copy of the disks is kept at each cut: tells which cut it is

    def make_ready(self, stack, does):
        """Sets which stack it has, and what it does once it is up."""
        self.stack, self.disk, self.does = stack, DISKS[stack.disks[0]], does
        self.disks_said.clear()
        shutil.copy(f"{self.work}/base.cpio", f"{self.work}/initrd")
        order = " ".join(os.path.basename(it) for it in in_order(self.kernel, stack.all_modules()))
        self.add({"stack/order": order, "stack/target": stack.target, "stack/devices": " ".join(map(stack.device, range(len(stack.disks)))), "stack/make": "\n".join(stack.make) + "\n", "stack/again": "\n".join(stack.again) + "\n"})

    def add(self, texts):
        """Lays files into the memory that it starts with."""
        shutil.rmtree(f"{self.work}/add", ignore_errors=True)
        for name in texts:
            os.makedirs(os.path.dirname(f"{self.work}/add/{name}"), exist_ok=True)
        write_all(f"{self.work}/add", texts)
        pack(f"{self.work}/add", f"{self.work}/add.cpio")
        append(f"{self.work}/add.cpio", f"{self.work}/initrd")

    def images(self):
        return [f"{self.work}/disk{at}" for at in range(len(self.stack.disks))]

    def give_new_disks(self, size, format_by=()):
        """Gives it blank disks of this size, on the first of which a command of this machine may make a
        file system."""
        for at in range(6):
            with open(f"{self.work}/disk{at}", "wb") as it:
                it.truncate(size)
        if os.path.exists(f"{self.work}/made"):
            os.remove(f"{self.work}/made")
        if format_by:
            subprocess.run([*format_by, f"{self.work}/disk0"], check=True)

    def start(self, name, words, to):
        self.running[name] = subprocess.Popen(words, cwd=self.work, stdin=subprocess.DEVNULL, stdout=to, stderr=to)

    def kill(self, *names):
        """Kills them at one moment, and waits until they are gone."""
        those = [self.running.pop(it) for it in names if it in self.running]
        for it in those:
            it.kill()
        for it in those:
            it.wait()

    def all_disks(self):
        return [f"disk{at}" for at in range(len(self.stack.disks))]

    def disk_on(self):
        cache = CACHES[self.stack.cache]
        for name in self.all_disks():
            if name in self.running:
                continue  # (a series that goes on gives the power that is there already)
            if os.path.exists(f"{self.work}/{name}.socket"):
                os.remove(f"{self.work}/{name}.socket")
            self.start(name, ["nbdkit", "-f", "-U", f"{name}.socket", *(["--filter=cache"] if cache else []), "file", name, *cache, *(["cache-max-size=64M"] if cache else [])], subprocess.DEVNULL)
        while not all(os.path.exists(f"{self.work}/{name}.socket") for name in self.all_disks()):
            time.sleep(0.02)

    def disk_off(self):
        """Cuts the disks' power: what lies in their caches is lost, and the machine goes on."""
        self.kill(*self.all_disks())

    def member_off(self):
        """Cuts the second disk's power, and while the others are written on that of all. For some seconds
        behind the fall nothing is: so long the system tries again."""
        self.kill("disk1")
        fell, last, writes = time.time(), 0, 0
        while writes < FALLEN_WRITES and time.time() < fell + UP_SECONDS:
            written = os.stat(f"{self.work}/disk0").st_mtime
            writes, last = writes + (written > max(last, fell + 1)), written
            time.sleep(0.05)
        time.sleep(random.uniform(*FALLEN_SECONDS))
        self.off()

    def begin(self):
        words = ["qemu-system-x86_64", *os.environ.get("QEMU_FLAGS", "-cpu max").split(), *"-m 512 -nographic -no-reboot -kernel".split(), glob.glob(f"{self.kernel}/boot/vmlinuz-*")[0]]
        name, script = os.path.basename(self.stack.device(0)), "again" if os.path.exists(f"{self.work}/made") else "make"
        words += ["-initrd", "initrd", "-append", f"console=ttyS0 quiet panic=1 no_timer_check net.ifnames=0 disk={name} script={script} {self.does}"]
        for kind in dict.fromkeys(self.stack.disks):
            words += DISKS[kind].bus.split()
        for at, kind in enumerate(self.stack.disks):
            words += ["-drive", f"if=none,id=disk{at},format=raw,cache=none,werror=report,rerror=report,file=nbd+unix:///?socket=disk{at}.socket", *DISKS[kind].words.format(at=at).split()]
        words += ["-netdev", f"user,id=net,restrict=on,hostfwd=tcp:127.0.0.1:{self.port}-:7", "-device", "virtio-net-pci,netdev=net,romfile="]
        self.disk_on()
        with open(f"{self.work}/said", "wb") as said:
            self.start("machine", words, said)

    def on(self):
        """Gives all their power."""
        for _ in range(STARTS):
            self.stop()
            self.begin()
            if self.comes_up():
                self.disks_said.update(re.findall(r"^DISK (.*)", self.said(), re.M))
                if "NO STACK" in self.said():
                    sys.exit(f"the stack isn't there: {self.said()[-1000:]}")
                open(f"{self.work}/made", "wb").close()
                return
        sys.exit(f"the machine doesn't come up: {self.said()[-300:]}")

    def comes_up(self):
        """Whether it is up in time. One that takes no processor's time never will be: qemu without
        -enable-kvm sometimes stops before its kernel begins, and nothing is written then."""
        until, used = time.monotonic() + UP_SECONDS, -2
        while time.monotonic() < until and (now := ticks_of(self.running["machine"].pid)) > used + 1:
            if self.awaits("UP", STUCK_SECONDS):
                return True
            used = now
        return False

    def stop(self):
        """Cuts the power of all."""
        self.kill("machine", *self.all_disks())

    def off(self):
        """Cuts the power of all, and may keep what the disks hold then: under its name once it is whole."""
        self.stop()
        for at, image in enumerate(self.images() if self.number else []):
            copy = f"{self.work}/cut-{self.number()}-disk{at}"
            subprocess.run(["cp", "--sparse=always", image, f"{copy}.new"], check=True)
            os.replace(f"{copy}.new", copy)

    def said(self):
        """What its console said since it was started."""
        with open(f"{self.work}/said", "rb") as it:
            return it.read().replace(b"\r", b"").decode("ascii", "replace")

    def awaits(self, word, seconds):
        """Whether a line of the console begins with the word within so many seconds."""
        until = time.monotonic() + seconds
        while f"\n{word}" not in self.said():
            if time.monotonic() > until:
                return False
            time.sleep(0.05)
        return True
