"""What becomes of a fleet whose notes have no room for another run: a new one takes its place. With a
mirror all its notes begin anew, whoever is killed within that."""
import os
import shlex
import shutil
import socket
import sys
import time

from fleet_links import hello
from fleet_mirrors import mirror
from serving import TOP, Servers, fleet, fleet_in_time, fleet_saying, job_file, reports
from trying import HANG, HERE, LIAR, comes, read, tell, write

sys.path.insert(0, f"{TOP}/harness/client")

from note import CLIENT, GENERATION_NUMBERS, MIRROR, KeptNote, new_generation, numbers_of
from states import states_in


def kept_in(path, whose=CLIENT):
    """What a file keeps, whoever has it: its note, and the fleet that this is of."""
    kept = object.__new__(KeptNote)
    kept.path, kept.whose = path, whose
    return kept.note_in(read(path)), kept.fleet


def fill(path):
    """Has a client's note keep as many states as leave no room for another run: copies of its first one,
    of earlier runs. Returns the note."""
    kept = KeptNote(path)
    note = kept.read()
    state = next(iter(states_in(note).values())).data
    others = b"".join(len(state).to_bytes(4, "big") + state[:4] + (9 + it).to_bytes(8, "big") + state[12:] for it in range(1010))
    kept.keep(note[:28] + (int.from_bytes(note[28:32], "big") + 1010).to_bytes(4, "big") + others + note[32:])
    full = kept.read()
    kept.close()
    return full


def full_notes():
    """Where the client's note has no room for another run, it is put aside, and a new one goes on, above
    its numbers; the servers start anew for it."""
    job_file("room.fio", jobs=1, blocks=64, writes=64)
    servers = Servers("room", 1, jobs=1)
    words = ["write", "room.fio", "--note", "room.note", "--after-writes", "64", *servers.links()]
    tell("a first run", fleet(*words)[0], 0)
    full = fill("room.note")
    status, _, said = fleet(*words)
    tell("a run for whose states there is no room", (status, "its states are in room.note.full-1" in said), (0, True))
    tell("the server has started anew for it", b"another fleet takes the place" in read(servers.said(0)), True)
    note = kept_in("room.note")[0]
    tell("its numbers are above", (len(states_in(note)), numbers_of(note) > numbers_of(full), note != full), (1, True, True))
    tell("and sound", fleet("check", "room.fio", "--note", "room.note", *servers.links())[0], 0)
    tell("the old one is as it was", kept_in("room.note.full-1")[0], full)
    tell("a server's note goes on", os.path.exists("room-0.note.full-1"), False)
    status, printed, _ = fleet("check", "room.fio", "--note", "room.note.full-1", "--wait", "3", *servers.links())
    tell("a check by the old one, at servers of the new one", (status, reports(printed)), (2, {}))
    tell("a number of one scale", abs(numbers_of(full)[1] - time.time() * GENERATION_NUMBERS) < 3600 * GENERATION_NUMBERS, True)
    servers.cut()


# The notes of a fleet of one server with a mirror, and whose each is. A client whose note was
# filled is answered once its mirror, which lacks these states, has kept most of them, each by
# itself: on a slow disk that takes a while.
NOTES = {"all.note": CLIENT, "all.kept": MIRROR, "all-0.note": 0}
LONG = ("--wait", str(HANG))
WRITE, CHECK = ("write", "all.fio", "--note", "all.note", "--after-writes", "64", *LONG), ("check", "all.fio", "--note", "all.note", *LONG)


def filled_fleet():
    """A fleet of one server with a mirror, whose client's note has no room: its server, its links, and
    its notes."""
    job_file("all.fio", jobs=1, blocks=64, writes=64)
    servers = Servers("all", 1, jobs=1)
    links = [*mirror("all.kept"), *servers.links()]
    tell("a first run with a mirror", fleet(*WRITE, *links)[0], 0)
    fill("all.note")
    return servers, links, {it: read(it) for it in NOTES}


def fleets_of_notes():
    """The fleet of each note. None may be missing."""
    return [kept_in(path, whose)[1] for path, whose in NOTES.items()]


def tell_new_fleet(what, before, links, runs=1):
    """Tells whether all notes are of one fleet, another one than before, that what was there is kept
    beside each, and that the fleet's last run is sound."""
    old = [kept_in(f"{path}.full-1", whose) for path, whose in NOTES.items()]
    fleets = {*fleets_of_notes()}
    tell(f"{what}: all notes are of one new fleet", (len(fleets), fleets & {it for _, it in old}), (1, set()))
    tell(f"{what}: the client's old one is as it was", read("all.note.full-1"), before["all.note"])
    note = kept_in("all.note")[0]
    generations = [numbers_of(it)[0] for it in (old[0][0], note)]
    tell(f"{what}: its numbers are above", (generations[0] < generations[1], numbers_of(note)[1] >= generations[1] * GENERATION_NUMBERS), (True, True))
    tell(f"{what}: its states", len(states_in(note)), runs)
    status, printed, _ = fleet(*CHECK, *links)
    tell(f"{what}: and sound", (status, reports(printed)), (0, {(0, 0): (64, 0, "whole", [])}))


def full_mirrors():
    """With a mirror the client's note, the mirror's and the server's are put aside together; the old
    fleet's client has no more to say to either."""
    servers, links, before = filled_fleet()
    status, _, said = fleet(*WRITE, *links)
    tell("with a mirror a run for whose states there is no room", status, 0)
    for note, where in (("all.note", said), ("all.kept", said), ("all-0.note", read(servers.said(0)).decode())):
        tell(f"{note}: it is said", f"{note}.full-1" in where, True)
    tell_new_fleet("a new fleet", before, links)
    shutil.copy("all.note.full-1", "old.note")
    status, printed, said = fleet_saying("this mirror keeps the states of another fleet", "check", "all.fio", "--note", "old.note", *links)
    tell("the old fleet's client", (status, reports(printed), "this mirror keeps the states of another fleet" in said), (2, {}, True))
    status, printed, said = fleet_saying("the note of server 0 is of another fleet", "check", "all.fio", "--note", "old.note", *mirror("old.kept"), *servers.links())
    tell("nor to its server", (status, reports(printed), "the note of server 0 is of another fleet" in said), (2, {}, True))
    fill("all.note")
    status, printed, _ = fleet("cycle", "all.fio", "series", "--note", "all.note", "--every", "600", "--cycles", "2", "--pause", "0", "--off", "true", "--on", "true", *LONG, *links)
    tell("a series over a note that is full again", (status, printed.count("0 faults, status 0")), (0, 2))
    tell("all are put aside once more", [os.path.exists(f"{it}.full-{at}") for it in NOTES for at in (2, 3)], [True, False] * 3)
    servers.cut()
    tell("generations above those past, whatever the clock says", new_generation(1 << 31), (1 << 31) + 1)


def shut_out_fillers():
    """A client that a later one has shut out puts nothing aside."""
    servers, links, before = filled_fleet()
    servers.cut()
    servers.restart()
    tell("a later client", fleet("write", "all.fio", "--note", "later.note", "--after-writes", "64", *links)[0], 0)
    status, _, said = fleet(*WRITE, "--wait", "3", *links)
    tell("the earlier one, whose note is full", (status, [os.path.exists(f"{it}.full-1") for it in NOTES]), (2, [False] * 3))
    tell("its note is as it was", read("all.note"), before["all.note"])
    servers.cut()


def past_generations():
    """Where the clock was put back, a new fleet's client has a generation above the one before all the
    same."""
    job_file("all.fio", jobs=1, blocks=64, writes=64)
    servers = Servers("all", 1, jobs=1)
    links = [*mirror("all.kept"), *servers.links()]
    kept = KeptNote("all.note")
    kept.servers, kept.fleet, kept.past = 1, 4711, int(time.time()) + 5000
    kept.keep(b"")
    kept.close()
    tell("a fleet by a clock that is ahead", fleet(*WRITE, *links)[0], 0)
    before = numbers_of(fill("all.note"))[0]
    tell("the next fleet", fleet(*WRITE, *links)[0], 0)
    tell("a generation above the one before", (before > time.time() + 4000, numbers_of(kept_in("all.note")[0])[0]), (True, before + 1))
    servers.cut()


def say_hello(path, *words):
    """Says hello at a server. Returns whether one was there."""
    with socket.socket(socket.AF_UNIX) as link:
        try:
            link.connect(path)
            link.sendall(hello(0, *words))
            link.settimeout(1)
            link.recv(4096)
        except (TimeoutError, ConnectionError):
            pass
        except OSError:
            return False
        return True


def is_noted(servers, turn):
    """Whether the note is of the fleet of this turn, which takes the place of the one before; or the server
    has ended."""
    say_hello("beside-0.note.socket", turn + 1, turn, True)
    return servers.running[0].poll() is not None or (os.path.exists("beside-0.note") and kept_in("beside-0.note", 0)[1] == turn + 1)


def saves_beside():
    """A server whose node saves without an end puts its note aside, for one fleet behind the other: no save
    comes between, and the server is there again each time."""
    servers = Servers("beside", 0, jobs=1)
    servers.count, servers.running = 1, [None]
    servers.start(0, {"NODE": f"{HERE}/saving_node.py"})
    for turn in range(8):
        tell(f"a note of the fleet, and its server, turn {turn}", (comes(lambda: is_noted(servers, turn)), servers.running[0].poll()), (True, None))
        tell(f"what is put aside, turn {turn}", [it for it in range(1, 9) if os.path.exists(f"beside-0.note.full-{it}")], [*range(1, turn + 1)])
        if servers.running[0].poll() is not None:
            break
    servers.cut()


def back_to(before):
    """Has the notes be those of before, and nothing put aside."""
    for path in os.listdir("."):
        if path.startswith(tuple(f"{it}.full" for it in NOTES)) or path in ("died", *NOTES):
            os.remove(path)
    for path, data in before.items():
        write(path, data)


def killed_within():
    """Whoever is killed while notes are put aside, be it the client, the mirror or the server, before or
    behind its new note: the next write ends it."""
    servers, links, before = filled_fleet()
    servers.cut()
    for victim, due in (("client", -9), ("mirror", 0), ("server", 2)):
        for step in ("link", "rename"):
            what, lie = f"{victim}, {step}", {"LD_PRELOAD": LIAR, "LIE_LEAVES": step}
            back_to(before)
            servers.start(0, lie if victim == "server" else None)
            once = f"[ -e died ] || {{ touch died; export LD_PRELOAD={shlex.quote(LIAR)} LIE_LEAVES={step}; }}; {links[1]}"
            ways = [links[0], once if victim == "mirror" else links[1], *links[2:]]
            way = lie if victim == "client" else {}
            status = fleet_in_time(lambda *_: servers.running[0].poll() is not None, *WRITE, *ways)[0] if victim == "server" else fleet(*WRITE, *ways, env=way)[0]
            tell(f"{what}: the write", status, due)
            tell(f"{what}: the server", servers.running[0].poll(), -9 if victim == "server" else None)
            tell(f"{what}: one note at least is put aside", any(os.path.exists(f"{it}.full-1") for it in NOTES), True)
            servers.kill(0)
            servers.start(0)
            tell(f"{what}: the next write", fleet(*WRITE, *links)[0], 0)
            tell_new_fleet(what, before, links, 2 if victim == "mirror" else 1)
            servers.cut()
