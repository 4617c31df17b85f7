"""What the tests of the harness share: runs of drive-target, the bytes that are due, and the
counts."""
import mmap
import os
import re
import struct
import subprocess
import time

HERE = os.path.dirname(os.path.realpath(__file__))
OUT = f"{os.path.dirname(HERE)}/out"
TARGET, AGENT, WITNESS, LIAR, LOSING = (f"{OUT}/{it}" for it in ("drive-target", "drive-agent", "drive-witness", "liar.so", "losing-fs"))
BLOCK = 4096
REPORT = re.compile(r"^(report checked \d+ faults \d+ end (?:whole|fault|read \d+) first (?:-|\d+(?: \d+)*))(?: [a-z][^\n]*)?$", re.M)
QUIET = {"stdout": subprocess.DEVNULL, "stderr": subprocess.DEVNULL}
# How long is waited for what has to happen, in seconds: a limit that only a hang reaches.
HANG = int(os.environ.get("HANG", 120))
PASSED, FAILED, SKIPPED = range(3)


def new_counts():
    """Returns what passed, failed and was skipped, in memory that a part's process shares with the one
    that runs all parts: so what it had counted is known also where it is killed."""
    return memoryview(mmap.mmap(-1, 12)).cast("I")


counts = new_counts()
# How many times as often as the gate has it nodes are killed.
as_often = {"killed": 1}


def tell(what, got, due):
    """Counts a test, and says where what came isn't what was due."""
    counts[PASSED if got == due else FAILED] += 1
    if got != due:
        print(f"FAILED: {what}: {got!r}, and not {due!r}", flush=True)


def skip(word, why):
    """Counts what can't be tried on this machine, by its word in tools/skips.py, and says why."""
    counts[SKIPPED] += 1
    print(f"SKIPPED: {word}: {why}", flush=True)


def tell_has(what, text, part):
    """Counts a test: whether a text has this part."""
    tell(what, part if part in text else text, part)


def report_in(word, printed):
    """Of what a check or a map printed: the line of its report without the kinds, or all up to it. Where
    there is none, what `drive` said in its place."""
    found = REPORT.search(printed)
    if not found:
        return printed.replace("not checked whole\n", "")
    return f"{found[1]}\n" if word == "check" else printed[: found.end() + 1]


def run(*words, program=TARGET, whole=False, **more):
    """Runs drive-target, or another program: its status, what it printed, and what it said; of a check
    its report alone, unless the whole is asked for. One that never ends is killed, and has no status."""
    status, printed, said = run_whole(*words, program=program, **more)
    is_report = not whole and program in (TARGET, WITNESS) and words and words[0] in ("check", "map")
    return status, report_in(words[0], printed) if is_report else printed, said


def run_whole(*words, program, **more):
    env = {**os.environ, **more.pop("env", {})}
    try:
        ran = subprocess.run([program, *words], capture_output=True, text=True, errors="replace", env=env, stdin=subprocess.DEVNULL, timeout=HANG, **more)
    except subprocess.TimeoutExpired:
        return None, "", f"it hasn't ended after {HANG} s"
    return ran.returncode, ran.stdout, ran.stderr


def write(path, data):
    with open(path, "wb" if isinstance(data, bytes) else "w") as it:
        it.write(data)


def read(path):
    with open(path, "rb") as it:
        return it.read()


def job(name, blocks=64, writes=None, depth=8, order="randwrite", block_size=BLOCK, more=""):
    """Makes a job file of one job."""
    text = f"[a]\nrw={order}\nbs={block_size}\nsize={blocks * block_size}\nio_size={(writes or blocks) * block_size}\niodepth={depth}\n{more}"
    write(name, text)
    return name


def stamp(run_number, job_number, number, block, block_size=BLOCK, server=0):
    """What a write puts into a block, by the manual's layout of a stamped sector."""
    tail = bytes((number + at) % 256 for at in range(476))
    front = struct.pack(">QIIQQ", run_number, server, job_number, number, block)
    return b"".join(front + struct.pack(">I", sector) + tail for sector in range(block_size // 512))


def state_in(path):
    """The bare state in a file that keeps one: its last bytes, as many as a line says."""
    data = read(path)
    found = re.search(rb"^state (\d+)\n\n", data, re.M)
    return data[-int(found[1]) :] if data.startswith(b"fiocut state 1\n") else data


def run_of(state):
    """The run that a state is of, or None where there is none."""
    return struct.unpack(">Q", state_in(state)[4:12])[0] if os.path.exists(state) else None


def report(faults, checked=64, end="whole"):
    """What a check prints of these faulty blocks, in their order."""
    first = " ".join(map(str, sorted(faults)[:32])) or "-"
    return f"report checked {checked} faults {len(faults)} end {end} first {first}\n"


def check(what, job_file, target, state, faults, *words, **more):
    """Checks a target, of which just these blocks have to be faulty."""
    status, printed, _ = run("check", job_file, target, state, *words, **more)
    tell(what, (status, printed), (1 if faults else 0, report(faults)))


def comes(holds):
    """Waits until something holds, and returns whether it ever does."""
    until = time.monotonic() + HANG
    while not holds():
        if time.monotonic() > until:
            return False
        time.sleep(0.002)
    return True


def await_that(holds, what):
    """Waits until something holds. It raises TimeoutError where that never comes."""
    if not comes(holds):
        raise TimeoutError(f"{what} never comes")


def await_file(path):
    """Waits until a file is there."""
    await_that(lambda: os.path.exists(path), path)


def await_text(path, part):
    """Waits until a file has this part."""
    await_that(lambda: part in read(path).decode(), f"{part!r} in {path}")


def whole_run():
    """Writes a whole run of two.fio to t, whose state is s."""
    tell("a whole run is written", run("write", "two.fio", "t", "s")[0], 0)


def put(data, block, bytes_, at=0):
    data[block * BLOCK + at : block * BLOCK + at + len(bytes_)] = bytes_
