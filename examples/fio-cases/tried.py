"""What the cases share: a folder of fio's own, runs of it there, and what they came to."""
import json
import os
import signal
import socket
import struct
import subprocess
import time

BLOCK = 4096
WAIT = 30


class Folder:
    """A folder in which one case runs fio. Every process in it was started by this script."""

    def __init__(self, path, fio, shims):
        self.path, self.fio, self.shims = path, fio, shims
        os.makedirs(path)
        self.data = f"{path}/data"

    def sub(self, name):
        return Folder(f"{self.path}/{name}", self.fio, self.shims)

    def write(self, name, content):
        with open(f"{self.path}/{name}", "wb") as it:
            it.write(content if isinstance(content, bytes) else content.encode())

    def read(self, name):
        with open(f"{self.path}/{name}", "rb") as it:
            return it.read()

    def bytes(self):
        return bytearray(self.read("data"))

    def zero(self, *blocks):
        """Zeroes blocks of the data."""
        it = self.bytes()
        for block in blocks:
            it[block * BLOCK : (block + 1) * BLOCK] = bytes(BLOCK)
        self.write("data", bytes(it))

    def written(self):
        """Returns the blocks that hold anything but zeros."""
        it = self.bytes()
        return [i for i in range(len(it) // BLOCK) if any(it[i * BLOCK : (i + 1) * BLOCK])]

    def states(self):
        return sorted(it for it in os.listdir(self.path) if it.endswith(".state"))

    def start(self, words, log, **env):
        with open(f"{self.path}/{log}", "wb") as it:
            return subprocess.Popen(words, cwd=self.path, stdout=it, stderr=it, stdin=subprocess.DEVNULL, env={**os.environ, **env})

    def run(self, text, *words, **env):
        """Runs a job file to its end, and returns what came of it."""
        self.write("job.fio", text)
        process = self.start([self.fio, "--output-format=json", *words, "job.fio"], "said", **env)
        try:
            process.wait(WAIT)
        except subprocess.TimeoutExpired:
            self.kill()
            process.wait()
            return Ended("hangs", "")
        return Ended(process.returncode, self.read("said").decode(errors="replace"))

    def cut(self, text, done, **env):
        """Starts a job file behind `held`, sets off a trigger once so many writes are done, and
        kills all once there is a state."""
        self.write("job.fio", text)
        process = self.start([self.fio, "--trigger-file=trigger", "--trigger=true", "job.fio"], "log", **self.held(**env))
        wait(lambda: self.read("log").count(b"done ") >= done)
        time.sleep(0.3)
        self.write("trigger", "")
        wait(self.states)
        time.sleep(0.2)
        self.kill()
        process.wait()

    def held(self, **env):
        return {"LD_PRELOAD": f"{self.shims}/held.so", **env}

    def kill(self):
        """Kills what runs in this folder."""
        for it in os.listdir("/proc"):
            try:
                if it.isdigit() and os.readlink(f"/proc/{it}/cwd") == os.path.realpath(self.path):
                    os.kill(int(it), signal.SIGKILL)
            except OSError:
                pass


class Ended:
    """How a run of fio ended: its status, how many blocks it read, and the faults that it told."""

    def __init__(self, status, said):
        self.status, self.said = status, said
        at = said.find("{\n")
        try:
            jobs = json.JSONDecoder().raw_decode(said[max(at, 0) :])[0]["jobs"]
            self.reads = sum(it["read"]["total_ios"] for it in jobs)
            self.writes = sum(it["write"]["total_ios"] for it in jobs)
        except (ValueError, KeyError, TypeError):
            self.reads = self.writes = None
        self.faults = said.count("verify: bad ") + said.count("verify failed at")

    def __str__(self):
        return f"read {self.reads}, status {self.status}"


def wait(until, most=WAIT):
    """Waits until something holds, and returns whether it does."""
    begun = time.time()
    while time.time() - begun < most:
        if until():
            return True
        time.sleep(0.02)
    return False


def in_flight(state):
    """Returns what a state says that is not done: of layout 3 nothing, later ones the numbers in
    flight."""
    layout, depth = struct.unpack_from("<Q", state, 0)[0], struct.unpack_from("<I", state, 24)[0]
    if layout < 5:
        return None
    numbers = [struct.unpack_from("<Q", state, len(state) - 8 * (depth - i))[0] for i in range(depth)]
    return sorted(it for it in numbers if it != 2**64 - 1)


def free_port():
    with socket.socket() as it:
        it.bind(("127.0.0.1", 0))
        return it.getsockname()[1]
