"""Fleets with a mirror: the client's note is lost, the mirror is killed, its link is bad, or another
takes its place; and what a client that begins anew finds."""
import os
import random
import re
import shlex
import shutil
import signal
import struct
import subprocess
import sys
import time

from fleet_links import frame, hello
from note import CLIENT, MIRROR, KeptNote
from serving import FLEET, TOP, Servers, earliest, fleet, fleet_saying, job_file, jobs_left_out, reports, turns
from trying import BLOCK, HANG, QUIET, as_often, await_file, comes, read, tell, tell_has, write

BAD_LINK = f"exec {shlex.quote(f'{TOP}/tools/bad-link')}"


def mirror(note, before="exec"):
    """The option that leads to a mirror."""
    command = f"{shlex.quote(FLEET)} mirror --note {note}"
    return ["--mirror", f"{before} {command if before == 'exec' else shlex.quote(command)}"]


def number_in(printed):
    found = re.search(r"^run (\d+)", printed, re.M)
    return found[1] if found else ""


def lost_with_a_mirror():
    """The client's note is lost behind the cut: the check goes by what the mirror kept. Where that is
    lost, too, there is no verdict."""
    job_file("mirror.fio", blocks=64, writes=64)
    servers, kept = Servers("mirror", 2), mirror("mirror.kept")
    status, printed, said = fleet("write", "mirror.fio", "--note", "mirror.note", "--after-writes", "256", *kept, *servers.links())
    tell("a fleet with a mirror writes", (status, "the states are kept" in printed), (0, True))
    tell_has("its mirror", said, "the mirror keeps 4 of 4 states")
    number = number_in(printed)
    servers.cut()
    os.remove("mirror.note")
    servers.restart()
    status, printed, _ = fleet("check", "mirror.fio", "--note", "mirror.note", *kept, *servers.links())
    found = reports(printed)
    tell("a check by the mirror's copies", (status, number_in(printed), [it[1:] for it in found.values()]), (0, number, [(0, "whole", [])] * 4))
    tell("all blocks were checked", [it[0] for it in found.values()], [64] * 4)
    servers.cut()
    data = bytearray(read("mirror-1-0"))
    block = earliest(data)
    data[block * BLOCK + 9] ^= 1
    write("mirror-1-0", bytes(data))
    os.remove("mirror.note")
    servers.restart()
    status, printed, _ = fleet("check", "mirror.fio", "--note", "mirror.note", *kept, *servers.links())
    tell("one bit of one block, by the copies", (status, {at: it[3] for at, it in reports(printed).items() if it[1]}), (1, {(1, 0): [block]}))
    tell_has("without its mirror", fleet("check", "mirror.fio", "--note", "mirror.note", *servers.links())[2], "the note of a client with a mirror")
    os.remove("mirror.note")
    os.remove("mirror.kept")
    tell_has("where both notes are lost", fleet("check", "mirror.fio", "--note", "mirror.note", *kept, *servers.links())[2], "no run was begun yet")
    servers.cut()
    servers.restart() # (till then they serve the fleet that is forgotten)
    status, printed, said = fleet_saying("is of another fleet", "check", "mirror.fio", "--run", number, "--note", "mirror.note", *kept, *servers.links())
    tell("another fleet with a mirror isn't served by their notes", (status, reports(printed), "is of another fleet" in said), (2, {}, True))
    status, printed, said = fleet("check", "mirror.fio", "--run", number, "--note", "plain.note", *servers.links())
    tell("its run has no verdict", (status, reports(printed), "" if status == 3 else said), (3, {}, ""))
    servers.cut()


def checked_by_copies(*words):
    """Checks lossy.fio by the copies of its mirror alone: the status, of each job how many blocks were checked
    and how many are faulty, and whether more than one life was wanted."""
    if os.path.exists("lossy.note"):
        os.remove("lossy.note")
    status, printed, said = fleet("check", "lossy.fio", "--note", "lossy.note", *words)
    return (status, [it[:2] for it in reports(printed).values()]), "copies of the mirror were lost" in said


def lossy_mirrors():
    """A mirror's link loses half of the copies in each life of the client, or four frames in ten: then hardly
    any life has all copies. What came in one counts in the next."""
    job_file("lossy.fio", jobs=4, blocks=64, writes=64)
    servers = Servers("lossy", 2, jobs=4)
    for _ in range(3):
        status, _, _ = fleet("write", "lossy.fio", "--note", "lossy.note", "--after-writes", "512", *mirror("lossy.kept"), *servers.links())
        tell("a fleet writes", status, 0)
    sound, were_lost = (0, [(64, 0)] * 8), False
    half = mirror("lossy.kept", f"exec {shlex.quote(sys.executable)} {shlex.quote(f'{TOP}/harness/testing/halving_link.py')}")
    bad = mirror("lossy.kept", f"{BAD_LINK} --lose 0.4 --repeat 0 --late 0 --cut 0")
    first = checked_by_copies(*half, *servers.links())
    tell("a check by copies of which half come in each life", first, (sound, True))
    found = [first[0]]
    # (while the grant is lost each copy is sent again, so that one life in ten gets all of them)
    while len(found) < 9 and not were_lost and found.count(sound) == len(found):
        came, were_lost = checked_by_copies(*bad, *servers.links())
        found.append(came)
    tell("a check by copies that come bit by bit", found, [sound] * len(found))
    tell("more than one life was wanted", were_lost, True)
    servers.cut()


def killed_mirrors():
    """Servers, the client and the mirror are killed at random moments, over links that lose, end, garble and
    hang, and the client's note is lost now and then; where a job is checked by its state, it has no fault,
    and where all is sound nothing is left out."""
    job_file("losses.fio", jobs=2, blocks=256, writes=100_000)
    servers, chance, whole, losses, kills = Servers("losses", 2), random.Random(11), 0, 0, 0
    links = servers.links(f"{BAD_LINK} --lose 0.02 --repeat 0.02 --late 0.02 --cut 0.005 --garble 0.005 --hang 0.0005")
    for turn, slow in turns(8 * as_often["killed"], lambda: whole >= 2 and losses >= 2):
        kept = mirror("losses.kept", f"{BAD_LINK} --cut 0.02")
        writing = subprocess.Popen([FLEET, "write", "losses.fio", "--note", "losses.note", "--after", f"{slow * chance.uniform(0.2, 0.6):.2f}", "--wait", str(4 * slow), *kept, *links], **QUIET)
        for _ in range(chance.randrange(5)):
            time.sleep(slow * chance.uniform(0.1, 0.8))
            kill_one(chance.randrange(6), servers, writing, "losses.kept")
            kills += 1
        writing.wait()
        servers.cut()
        if chance.random() < 0.5 and os.path.exists("losses.note"):
            os.remove("losses.note")
            losses += 1
        servers.restart()
        status, printed, _ = fleet("check", "losses.fio", "--note", "losses.note", "--wait", str(10 * slow), *kept, *links)
        tell(f"killed mirrors, turn {turn}: no false fault", [at for at, it in reports(printed).items() if it[1]], [])
        whole += status == 0
        tell(f"killed mirrors, turn {turn}: its check ends, and what is sound is whole", (status is not None, jobs_left_out(printed, 2, 2) if status == 0 else []), (True, []))
    print(f"killed_mirrors: {kills} kills at random and {2 * (turn + 1)} of servers at their cuts, {losses} notes lost, {whole} checks by all states")
    tell("notes were lost, and checks came to their end", (losses >= 2, whole >= 2), (True, True))
    servers.cut()


def kill_one(victim, servers, writing, kept):
    """Kills a server, which begins again, the client, or the mirror, by its note."""
    if victim < 2:
        servers.kill(victim)
        servers.start(victim)
    elif victim == 2:
        writing.kill()
    else:
        kill_mirror(kept)


def kill_mirror(kept):
    """Kills the mirror over this note in this folder, and no other test's."""
    for pid in filter(str.isdigit, os.listdir("/proc")):
        try:
            words = read(f"/proc/{pid}/cmdline").split(b"\0")
            if words[-4:-1] == [b"mirror", b"--note", kept.encode()] and os.readlink(f"/proc/{pid}/cwd") == os.getcwd():
                os.kill(int(pid), signal.SIGKILL)
        except OSError:
            pass # (it has ended)


def taken_places():
    """A second mirror over a note takes the place of the first; a note that is torn or another node's
    is refused; a later client keeps the earlier one from beginning."""
    words = {"stdin": subprocess.PIPE, "stdout": subprocess.PIPE, "stderr": subprocess.DEVNULL}
    first = subprocess.Popen([FLEET, "mirror", "--note", "place.kept"], **words)
    await_file("place.kept.place")
    second = subprocess.Popen([FLEET, "mirror", "--note", "place.kept"], **words)
    tell("who was there before has ended", first.wait(HANG), 0)
    second.stdin.close()
    tell("and who took its place ends with its link", second.wait(HANG), 0)
    job_file("place.fio", jobs=1, blocks=64, writes=512)
    servers, kept = Servers("place", 1, jobs=1), mirror("place.kept")
    for note in ("early.note", "late.note"):
        tell(f"a client on {note} begins", fleet("write", "place.fio", "--note", note, "--after", "0.2", *kept, *servers.links())[0], 0)
    status, _, said = fleet_saying("a later client has begun", "write", "place.fio", "--note", "early.note", "--after", "0.2", *kept, *servers.links())
    tell("the earlier one begins no more", (status, "a later client has begun" in said), (2, True))
    servers.cut()
    for what, note, why in (("the client's note", "late.note", "another node's note"), ("a torn note", "torn.kept", "aren't those that were kept")):
        shutil.copy("place.kept", "torn.kept")
        write("torn.kept", read("torn.kept")[:-1])
        tell_has(f"a mirror on {what}", fleet("mirror", "--note", note)[2], why)


def mirrors_of_a_fleet():
    """A mirror keeps nothing before it knows of which fleet it is, so that what it keeps says so: also of a
    run that is over in less than a second."""
    it = subprocess.Popen([FLEET, "mirror", "--note", "whose.kept"], stdin=subprocess.PIPE, stdout=subprocess.PIPE, stderr=subprocess.DEVNULL)
    fetch = lambda generation: frame(struct.pack(">Q", generation), kind=20, way=(8, 9))
    for fleet_number, generation, is_kept in ((0, 5, False), (4711, 6, True)):
        it.stdin.write(hello(9, fleet=fleet_number) + fetch(generation))
        it.stdin.flush()
        until = time.monotonic() + (HANG if is_kept else 2)
        while not os.path.exists("whose.kept") and time.monotonic() < until:
            time.sleep(0.01)
        tell(f"behind a hello of fleet {fleet_number} it keeps its note", os.path.exists("whose.kept"), is_kept)
    it.stdin.close()
    it.wait(HANG)
    job_file("whose.fio", jobs=1, blocks=64, writes=64)
    servers = Servers("whose", 1, jobs=1)
    status, _, said = fleet("write", "whose.fio", "--note", "whose.note", *mirror("brief.kept"), *servers.links())
    servers.cut()
    tell("a short run", (status, "the mirror keeps 1 of 1 states" in said), (0, True))
    fleets = [fleet_of(*it) for it in (("whose.kept", MIRROR), ("brief.kept", MIRROR), ("whose.note", CLIENT))]
    tell("what each note says of its fleet", (fleets[0], fleets[1] == fleets[2] > 0), (4711, True))


def fleet_of(path, whose):
    """The fleet of which a note is, by its file."""
    kept = KeptNote(path, whose)
    kept.read()
    kept.close()
    return kept.fleet


def untaken_words():
    """A mirror whose words nobody takes any more ends, though its input goes on."""
    it = subprocess.Popen([FLEET, "mirror", "--note", "untaken.kept"], stdin=subprocess.PIPE, stdout=subprocess.PIPE, stderr=subprocess.DEVNULL)
    it.stdout.close()
    it.stdin.write(hello(9))
    it.stdin.flush()
    tell("it has ended", comes(lambda: it.poll() is not None), True)
    it.kill()
    it.wait()


LIVES = """import sys, time
from fleet import Fleet
for life in range(2):
    client = Fleet("lives.note", [])
    time.sleep(0.2)
    client.close()
    with open("lives.note", "rb") as it:
        kept = it.read()
    time.sleep(0.5)
    with open("lives.note", "rb") as it:
        print(kept == it.read())
"""


def ended_lives():
    """A client whose node is busy saving ends its life: behind that nothing is saved any more, so that
    the next life finds all that was."""
    ways = {**os.environ, "NODE": f"{TOP}/harness/testing/saving_node.py", "PYTHONPATH": f"{TOP}/harness/client", "PYTHONDONTWRITEBYTECODE": "1"}
    ran = subprocess.run([sys.executable, "-c", LIVES], env=ways, capture_output=True, text=True, timeout=HANG)
    tell("no life saves behind its end", (ran.returncode, ran.stdout, ran.stderr), (0, "True\nTrue\n", ""))
