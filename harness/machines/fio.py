"""What fio answers to the same cut of a stack: it writes with a trigger, which has it keep its verify
states; the power goes as soon as these are out; and behind the next start it reads by them. Where a disk
falls out before that, or all lose their power alone, they do so while it writes."""
import base64
import os
import re
import subprocess
import time

SECONDS = 120
BLOCK = 4096
# It is cut so many seconds behind its first writes: a machine may take some until it makes them. Its state
# is there once the line behind it is.
BEGUN = "writes() { awk '{ n += $5 } END { print n }' /sys/block/*/stat; }; was=$(writes); (until [ $(writes) -ge $((was + 100)) ]; do usleep 50000; done; (echo; echo FIO WRITES) >/dev/console; sleep {seconds}; touch now) &\n"
TRIGGER = "--trigger-file=now --trigger='(echo; echo FIOSTATE:$(base64 -w 0 local-a-0-verify.state):; echo FIO KEPT) >/dev/console; sleep 1000'"
# A disk falls out once it has each block of a region of 1 MiB, and so long is written in all.
SIZES = {"all": "--size=4m", "disks": "--size=4m", "member": "--size=1m --io_size=3g"}
REGION, FALLEN_SECONDS = 1 << 20, 30
RATES = {"all": 50, "disks": 50, "member": 200}  # (so that it isn't through before it is cut)
SYNC = {"fua": "--sync=dsync", "flush": "--fdatasync=8", "through": ""}
# A disk that lost its power alone fails a write: fio ends, and keeps its state then.
ALONE = "echo FIO ENDED; until dd if=$target of=/dev/null bs=4096 count=1 iflag=direct 2>/dev/null; do usleep 50000; done; "


def job(stack, name, more):
    """The command by which fio writes or reads a file or a device, as a job over the region of a stack."""
    return f"fio --name=a --filename={name} --bs=4k {SIZES[stack.cut]} --iodepth=8 --ioengine=libaio --eta=never --verify=crc32c {more}"


def write_of(stack, seconds):
    trigger = "" if stack.cut == "disks" else TRIGGER
    return BEGUN.replace("{seconds}", str(seconds)) + job(stack, "$target", f"--direct=1 --rw=randwrite --do_verify=0 --verify_state_save=1 {SYNC[stack.promise.split()[0]]} --rate_iops={RATES[stack.cut]} {trigger}")


def check_of(stack):
    """The first check stops at the first fault, and has a status; the second tells of all, and has none."""
    read = job(stack, "$target", "--direct=1 --rw=randread --verify_state_load=1")
    return f"{read} && echo FIO SOUND || echo FIO FAULT\n{read} --verify_fatal=0 --continue_on_error=verify"


def script(command):
    return f"cd /tmp && [ ! -f /fio/state ] || cp /fio/state local-a-0-verify.state\n{command}\necho FIO DONE\nsleep 1000\n"


def answer(machine, stack, seconds):
    """Returns what fio tells that wrote for so many seconds: whether it found a fault, and how many, and
    where each disk is looked at whether it found one there; or why there was no cut."""
    machine.give_new_disks(stack.size)
    if stack.cut == "disks":
        command = f"{write_of(stack, 0)}\n{ALONE}\n{check_of(stack)}"
        return verdict(run(machine, stack, {"fio/run": script(command)}, "FIO DONE", lambda: cut_alone(machine, seconds)))
    is_member = stack.cut == "member"
    command = write_of(stack, seconds + FALLEN_SECONDS * is_member)
    said = run(machine, stack, {"fio/run": script(command)}, "FIO KEPT", lambda: fall_out(machine, seconds) if is_member else None)
    found = re.search(r"FIOSTATE:([A-Za-z0-9+/=]+):", said)
    if not found:
        return {"why": said[-500:]}
    state = base64.b64decode(found[1])
    more = {"members": [is_fault_here(machine, stack, os.path.basename(it), state) for it in machine.images()]} if stack.each else {}
    if is_member and not (more := {**more, "apart": apart(*machine.images())})["apart"]:
        return {"why": "nothing was written behind the fall of a disk"}
    said = run(machine, stack, {"fio/run": script(check_of(stack)), "fio/state": state}, "FIO DONE")
    return {**verdict(said), **more}


def verdict(said):
    """What it told of its check; why there is none, where it told of none."""
    if "\nFIO DONE" not in said:
        return {"why": said[-500:]}
    return {"fault": "\nFIO FAULT" in said, "sound": "\nFIO SOUND" in said, "told": len(re.findall(r"^verify: ", said, re.M))}


def run(machine, stack, files, word, meanwhile=lambda: None):
    """Starts the machine with these files, does something meanwhile, and cuts its power as it has said the
    word. Returns all it said."""
    machine.make_ready(stack, "do=fio")
    machine.add(files)
    machine.on()
    meanwhile()
    machine.awaits(word, SECONDS)
    machine.off()
    return machine.said()


def has_all(image):
    with open(image, "rb") as it:
        return all(any(it.read(BLOCK)) for _ in range(REGION // BLOCK))


def apart(image, other):
    """How many blocks of the region two disks hold otherwise."""
    with open(image, "rb") as one, open(other, "rb") as two:
        return sum(one.read(BLOCK) != two.read(BLOCK) for _ in range(REGION // BLOCK))


def fall_out(machine, seconds):
    """Cuts the second disk's power, once it has each block and was written on for so many seconds."""
    until = time.monotonic() + SECONDS
    machine.awaits("FIO WRITES", SECONDS)
    while not has_all(f"{machine.work}/disk1") and time.monotonic() < until:
        time.sleep(0.1)
    time.sleep(seconds)
    machine.kill("disk1")


def cut_alone(machine, seconds):
    """Cuts the disks' power while fio writes, and gives it back as that has ended."""
    machine.awaits("FIO WRITES", SECONDS)
    time.sleep(seconds)
    machine.disk_off()
    machine.awaits("FIO ENDED", SECONDS)
    machine.disk_on()


def is_fault_here(machine, stack, name, state):
    """Whether fio, on this machine, finds a fault on a disk by itself."""
    with open(f"{machine.work}/local-a-0-verify.state", "wb") as it:
        it.write(state)
    words = job(stack, name, "--rw=randread --verify_state_load=1").split()
    return subprocess.run(words, cwd=machine.work, stdout=subprocess.DEVNULL, stderr=subprocess.DEVNULL).returncode != 0
