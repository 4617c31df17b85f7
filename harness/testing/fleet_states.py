"""The states of a client's note, written out into files of their own: each target is checked by the one
of its job, though the fleet has no verdict any more."""
import os
import re

from fleet_mirrors import mirror
from serving import Servers, earliest, fleet, fleet_until_done, job_file
from trying import BLOCK, TARGET, read, run, tell, tell_has, write

COMMAND = re.compile(r"^server (\d+) job (\d+): drive-target (check \S+ TARGET (\S+) --job \d+)$", re.M)


def commands_in(printed):
    """The words of each command, by server and job, and the state's file."""
    return {(int(server), int(job)): (words.split(), file) for server, job, words, file in COMMAND.findall(printed)}


def checked(words, target, *more):
    """What a command says of this target: its status, and its last line up to the faults."""
    status, printed, said = run(*[target if it == "TARGET" else it for it in words], *more, program=TARGET, whole=True)
    return status, printed, said


def written_out(name, servers, *links):
    """Has a fleet write, and its servers cut; then writes its states out. Returns their commands."""
    status, _, _ = fleet_until_done(servers, f"{name}.fio", "--note", f"{name}.note", *links, *servers.links())
    tell(f"{name}: a fleet writes", status, 0)
    servers.cut()
    status, printed, said = fleet("states", f"{name}.fio", f"{name}.states", "--note", f"{name}.note")
    tell(f"{name}: its states are written out", (status, sorted(os.listdir(f"{name}.states"))), (0, sorted(os.path.basename(it) for _, it in commands_in(printed).values())))
    return commands_in(printed)


def states_written_out():
    """A fleet with a mirror writes, and then the mirror is gone: each of its targets has a verdict by its
    own state; a harmed block is a fault, and another server's target isn't taken for its own."""
    job_file("out.fio", jobs=2, blocks=64, writes=100_000)
    servers = Servers("out", 2)
    commands = written_out("out", servers, *mirror("out.kept"))
    os.remove("out.kept")
    tell("a state of each job at each server", sorted(commands), [(0, 0), (0, 1), (1, 0), (1, 1)])
    for (server, job), (words, _) in commands.items():
        status, printed, _ = checked(words, f"out-{server}-{job}")
        tell(f"server {server} job {job}", (status, re.findall(r"^sound: [1-9]\d* blocks checked, 0 faults", printed, re.M) != []), (0, True))
    data = bytearray(read("out-1-1"))
    block = earliest(data)
    data[block * BLOCK + 99] ^= 8
    write("out-1-1", bytes(data))
    status, printed, _ = checked(commands[1, 1][0], "out-1-1")
    tell("one bit of one block", (status, re.findall(r"faults (\d+) end whole first (\d+)", printed)), (1, [("1", str(block))]))
    status, printed, _ = checked(commands[1, 0][0], "out-0-0")
    tell("the target of another server", (status, " of server 0 of run " in printed), (1, True))
    status, _, said = checked(commands[1, 1][0], "out-1-1", "--dump", "4")
    tell_has("what its blocks may hold isn't made", said, "`drive` makes the writes of its server 0 alone")
    refused_states(commands)


def refused_states(commands):
    """What isn't written out, and what isn't taken for a state that was."""
    job_file("less.fio", jobs=1, blocks=64, writes=64)
    for what, words, why in (
        ("files that are there", ("out.fio", "out.states"), "it is there already"),
        ("a run that it doesn't know", ("out.fio", "new.states", "--run", "7"), "it keeps no state of run 7"),
        ("another job file", ("less.fio", "new.states"), "the state of server 0 job 1 isn't of a job of this file"),
    ):
        status, printed, said = fleet("states", *words, "--note", "out.note")
        tell(what, (status, printed, why in said, os.path.exists("new.states")), (2, "", True, False))
    words, file = commands[0, 0]
    data = bytearray(read(file))
    data[-60] ^= 1
    write(file, bytes(data))
    status, printed, said = checked(words, "out-0-0")
    tell("a state's file that is harmed", (status, printed, "its bytes aren't those that were kept" in said), (2, "", True))


def states_of_places():
    """A state that is written out doesn't say where its blocks lie: the options of its check do."""
    job_file("at.fio", jobs=2, blocks=32, writes=100_000)
    servers = Servers("at", 0)
    servers.count, servers.running, servers.places = 1, [None], ["at@4096/8192", "at@8192/8192"]
    servers.start(0)
    commands = written_out("at", servers)
    for job, offset in ((0, 4096), (1, 8192)):
        status, printed, _ = checked(commands[0, job][0], "at", "--offset", str(offset), "--stride", "8192")
        tell(f"job {job} at its place", (status, "0 faults" in printed), (0, True))
    status, printed, _ = checked(commands[0, 1][0], "at", "--offset", "4096", "--stride", "8192")
    tell("at another job's place", (status, "misdirected" in printed), (1, True))


def states_of_two_runs():
    """Of two runs whose states lie beside each other the earlier one's blocks are faults by the later one's
    state, though that was written out first; and the later one's none by the earlier one's."""
    job_file("two-runs.fio", jobs=1, blocks=64, writes=64)
    servers, runs, held = Servers("two-runs", 1, jobs=1), [], []
    for _ in range(2):
        fleet("write", "two-runs.fio", "--note", "two-runs.note", "--after-writes", "64", *servers.links())
        printed = fleet("check", "two-runs.fio", "--note", "two-runs.note", *servers.links())[1]
        runs.append(re.search(r"^run (\d+): sound", printed, re.M)[1])
        held.append(read("two-runs-0-0"))
    servers.cut()
    found = []
    for number in reversed(runs):
        found.append(commands_in(fleet("states", "two-runs.fio", "states", "--run", number, "--note", "two-runs.note")[1])[0, 0][0])
    write("two-runs-0-0", held[0])
    tell("by the later run's state what the earlier one wrote is at fault", checked(found[0], "two-runs-0-0")[0], 1)
    write("two-runs-0-0", held[1])
    tell("by its own it is sound", checked(found[0], "two-runs-0-0")[0], 0)
    tell("by the earlier run's state there is no verdict of what the later one wrote", checked(found[1], "two-runs-0-0")[0], 3)
