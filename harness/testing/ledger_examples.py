"""What a check by a ledger tells, and one by the last state alone doesn't: blocks that were lost at
rest, below a short run and behind five."""
import os
import struct
import subprocess
from collections import namedtuple

from trying import tell

SIZE = 512
# A run of a job: its number, the block of each of its writes that was done, and its state.
Run = namedtuple("Run", "number blocks state")


def text_of(blocks):
    return f"[a]\nrw=randwrite\nbs={SIZE}\nsize={blocks * SIZE}\niodepth=8\n".encode()


def behind_length(data):
    return struct.pack(">I", len(data)) + data


def drive(word, number, *parts):
    """Runs `drive` with these parts of an input: its status, and what it writes."""
    ran = subprocess.run([os.environ["DRIVE"], word, str(number), "0"], input=b"".join(parts), stdout=subprocess.PIPE)
    return ran.returncode, ran.stdout


def write_run(number, disk, count):
    """A run that is cut behind its first so many writes, which are told as done in their order. Of
    those that were in flight then each second one has landed."""
    notices = b"".join(struct.pack(">QQ", 1, write) for write in range(count)) + struct.pack(">QQ", 3, 0)
    _, printed = drive("write", number, behind_length(text_of(len(disk))), notices)
    order = []
    for write, at in enumerate(range(0, len(printed) - 136, 16 + SIZE)):
        order.append(struct.unpack_from(">Q", printed, at + 8)[0])
        if write < count or write % 2:
            disk[order[-1]] = printed[at + 16 : at + 16 + SIZE]
    return Run(number, order[:count], printed[-136:])


def checked(word, run, disk, ledger):
    """A check by a ledger: the status, the lines before that of the new ledger, and the new ledger, or
    what stands there in its place."""
    state = behind_length(run.state) if word == "ledger" else b""
    content = b"".join(b"\1" + data for data in disk)
    status, printed = drive(word, run.number, behind_length(text_of(len(disk))), state, behind_length(ledger), content)
    text, _, behind = printed.partition(b"\nledger ")
    length, _, ledger = behind.partition(b"\n")
    is_whole = length.isdigit() and int(length) == len(ledger)
    return status, text.decode(errors="replace").splitlines(), ledger if is_whole else printed


def unchecked(blocks):
    """The line of these blocks, of which nothing is asked."""
    fronts = [block for block in blocks if block - 1 not in blocks]
    backs = [block for block in blocks if block + 1 not in blocks]
    return "unchecked" + "".join(f" {front}-{back}" for front, back in zip(sorted(fronts), sorted(backs)))


def sound(count, but=frozenset()):
    """The lines of a check of so many blocks, all of them sound, where nothing is asked of some."""
    return [unchecked(but), f"report checked {count - len(but)} faults 0 end whole first -"]


def lost(blocks, count, wanted):
    """The lines of a check of so many blocks, of which these are zeros and were to hold what is
    wanted of each."""
    lines = [f"block {block} at-rest: wants write {wanted[block][0]} of run {wanted[block][1]}, holds zeros" for block in blocks]
    first = " ".join(map(str, blocks[:32]))
    return lines + [unchecked([]), f"report checked {count} faults {len(blocks)} end whole first {first} at-rest {len(blocks)}"]


def wanted_of(runs):
    """The write that each block was last written by, and its run."""
    return {block: (write, run.number) for run in runs for write, block in enumerate(run.blocks)}


def zero(disk, blocks):
    for block in blocks:
        disk[block] = bytes(SIZE)


def ledger_below_a_short_run():
    """A run writes all blocks, and another one a hundred; then three thousand are lost that the second
    hasn't touched. Its state alone asks for none of these."""
    disk = [bytes(SIZE) for _ in range(4096)]
    first = write_run(1, disk, 4096)
    status, lines, ledger = checked("ledger", first, disk, b"")
    tell("all blocks of the first run", (status, lines), (0, sound(4096)))
    second = write_run(2, disk, 100)
    gone = sorted(first.blocks[1000:4000])
    zero(disk, gone)
    state, content = behind_length(second.state), b"".join(disk)
    status, printed = drive("check", 2, behind_length(text_of(4096)), state, content)
    tell("by the second state alone", (status, printed), (0, b"report checked 100 faults 0 end whole first -\n"))
    status, lines, behind = checked("ledger", second, disk, ledger)
    tell("by a ledger", (status, lines), (1, lost(gone, 4096, wanted_of([first]))))
    status, lines, _ = checked("ledger-rest", second, disk, behind)
    tell("each is told once", (status, lines), (0, sound(4096, set(gone))))


def ledger_behind_five_runs():
    """Five runs of one job over all the blocks that a job may have, cut at different lengths; then five
    hundred blocks are lost that a check had found sound, and that no later run wrote."""
    disk, runs, ledger = [bytes(SIZE) for _ in range(65_536)], [], b""
    for number, count in enumerate((65_536, 40_000, 10_000, 30_000), 1):
        runs.append(write_run(number, disk, count))
        status, lines, ledger = checked("ledger", runs[-1], disk, ledger)
        tell(f"run {number}, of {count} writes", (status, lines), (0, sound(65_536)))
    order = runs[0].blocks
    tell("the same order", [run.blocks for run in runs], [order[: len(run.blocks)] for run in runs])
    gone = sorted(order[25_000:25_100] + order[35_000:35_200] + order[50_000:50_200])
    zero(disk, gone)
    runs.append(write_run(5, disk, 20_000))
    due = lost(gone, 65_536, wanted_of(runs))
    status, lines, behind = checked("ledger", runs[-1], disk, ledger)
    tell("five hundred lost blocks behind the fifth run", (status, lines), (1, due))
    status, lines, ledger = checked("ledger-rest", runs[-1], disk, behind)
    tell("and no more of them at the next check", (status, lines), (0, sound(65_536, set(gone))))
