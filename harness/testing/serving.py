"""What the tests of fleets share: job files, servers over files, and what a check printed."""
import collections
import os
import re
import shlex
import struct
import subprocess

from trying import BLOCK, HANG, OUT, await_file, await_text, await_that, read, run, write

TOP = os.path.dirname(os.path.dirname(OUT))
FLEET, SERVER = f"{TOP}/harness/fleet", f"{OUT}/fleet-server"
# So many writes of a job are in flight at once, at most, where a test says no other depth.
DEPTH = 8
# For how many seconds a client waits for its servers, where they never give it all that it waits
# for. What they do give has to come within that: on a slow machine it is asked again, with more of
# them.
FEW, MORE = 3, HANG // 3
# (The report of a map has the kinds behind it, and is none of these.)
LINE = re.compile(r"^server (\d+) job (\d+): report checked (\d+) faults (\d+) end (\w+).* first ([\d -]*)$", re.M)


def job_file(name, jobs=2, blocks=256, writes=4096, depth=DEPTH):
    """Makes a job file of so many jobs."""
    text = "".join(f"[j{at}]\nrw=randwrite\nbs={BLOCK}\nsize={blocks * BLOCK}\nio_size={writes * BLOCK}\niodepth={depth}\n" for at in range(jobs))
    write(name, text)
    return name


class Servers:
    """Servers of a fleet, each over a file for each job, and their links."""

    places = None # the targets of all servers, where they aren't those files

    def __init__(self, name, count, jobs=2, **more):
        self.name, self.count, self.jobs, self.more = name, count, jobs, more
        self.running = [None] * count
        for server in range(count):
            self.start(server)

    def targets(self, server):
        return [f"{self.name}-{server}-{at}" for at in range(self.jobs)]

    def note(self, server):
        return f"{self.name}-{server}.note"

    def said(self, server):
        """The file of what it says on standard error."""
        return f"{self.name}-{server}.said"

    def before(self, server):
        """The words that stand before its command."""
        return []

    def start(self, server, lie=None, options=(), wait=True):
        if os.path.exists(f"{self.note(server)}.socket"):
            os.remove(f"{self.note(server)}.socket")
        words = [*self.before(server), SERVER, str(server), *(self.places or self.targets(server)), "--note", self.note(server), *options]
        with open(self.said(server), "ab") as said:
            self.running[server] = subprocess.Popen(words, env={**os.environ, **(lie or {})}, stdin=subprocess.DEVNULL, stdout=subprocess.DEVNULL, stderr=said)
        if wait:
            await_file(f"{self.note(server)}.socket")

    def signal(self, number):
        for it in self.running:
            it.send_signal(number)

    def kill(self, server):
        self.running[server].kill()
        self.running[server].wait()

    def cut(self):
        for server in range(self.count):
            self.kill(server)

    def restart(self):
        for server in range(self.count):
            self.start(server)

    def links(self, before="exec"):
        """The options that lead to them; `before` stands before each command."""
        commands = [f"{shlex.quote(SERVER)} link --note {self.note(server)} 2>/dev/null" for server in range(self.count)]
        return [it for command in commands for it in ("--server", f"{before} {shlex.quote(command) if before != 'exec' else command}")]


def fleet(*words, **more):
    return run(*words, program=FLEET, **more)


def fleet_in_time(holds, *words, **more):
    """Runs a client that doesn't get all that it waits for: its status, what it printed and what it
    said, of which this has to hold. Where it doesn't, the client has more time, once."""
    found = fleet(*words, "--wait", str(FEW), **more)
    return found if holds(*found) else fleet(*words, "--wait", str(MORE), **more)


def fleet_saying(part, *words, **more):
    """The same where it has to say this part, or parts."""
    parts = [part] if isinstance(part, str) else part
    return fleet_in_time(lambda status, printed, said: all(it in said for it in parts), *words, **more)


def fleet_once(awaits, *words):
    """Has a fleet write, and pulls its trigger once this has waited: its status, what it printed,
    and what it said, which is in "fleet.said"."""
    with open("fleet.said", "wb") as said:
        writing = subprocess.Popen([FLEET, "write", *words, "--trigger-file", "pulled"], stdin=subprocess.DEVNULL, stdout=subprocess.PIPE, stderr=said, text=True)
    awaits()
    write("pulled", "")
    printed = writing.communicate(timeout=HANG)[0]
    os.remove("pulled")
    return writing.returncode, printed, read("fleet.said").decode()


def fleet_until(part, said_by, *words):
    """Has a fleet write until this file has that part."""
    return fleet_once(lambda: await_text(said_by, part), *words)


def fleet_until_done(servers, *words):
    """Has a fleet write until each job at each server has a write that is done: so a check has
    blocks to check, however late a server comes to write."""
    files = {place.split("@")[0] for at in range(servers.count) for place in servers.places or servers.targets(at)}
    return fleet_once(lambda: await_done(files, servers.count * len(servers.places or servers.targets(0))), *words)


def await_done(files, places):
    """Waits until so many jobs at servers have more writes of the run that is begun than are in
    flight at once, in these files."""
    await_text("fleet.said", " is begun")
    number = int(re.search(r"run (\d+) is begun", read("fleet.said").decode())[1])

    def are_done():
        fronts = [struct.unpack_from(">QII", data, at) for data in map(read, files) for at in range(0, len(data) - BLOCK + 1, BLOCK)]
        counts = collections.Counter((server, job) for run_number, server, job in fronts if run_number == number)
        return sum(it > DEPTH for it in counts.values()) == places

    await_that(are_done, "a write of each job that is done")


def turns(least, is_enough):
    """The numbers of turns, and how many times as slow each is: so many, and slower ones behind
    them where too little has come to its end by then, as on a slow machine."""
    for turn in range(least + 6):
        if turn < least or not is_enough():
            yield turn, 1 if turn < least else 5


def earliest(data):
    """The block that holds the earliest write which still stands: it is done, as none is ordered that
    is further ahead of the oldest open one than the window."""
    numbers = {struct.unpack_from(">Q", data, at + 16)[0]: at // BLOCK for at in range(0, len(data), BLOCK) if any(data[at : at + BLOCK])}
    return numbers[min(numbers)]


def jobs_left_out(printed, servers, jobs):
    """The jobs of a check that is told as sound of which no block was checked by a state."""
    found = reports(printed)
    return [(server, job) for server in range(servers) for job in range(jobs) if not found.get((server, job), (0,))[0]]


def reports(printed):
    """What a check printed, by server and job: how many blocks were checked, and the faulty ones."""
    found = {}
    for server, job, checked, faults, end, first in LINE.findall(printed):
        found[int(server), int(job)] = (int(checked), int(faults), end, [] if first == "-" else [int(it) for it in first.split()])
    return found
