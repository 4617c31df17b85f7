"""What a fleet's client makes of what comes: reports of an earlier check, copies that a mirror doesn't
keep, numbers that are drawn, links that take a few bytes at a time, and what its options say beside
an address book."""
import os
import shlex
import struct
import sys
import threading
import time
from types import SimpleNamespace

from fleet_links import bare
from fleet_mirrors import number_in
from serving import FLEET, TOP, Servers, fleet, fleet_saying, job_file, reports
from trying import HERE, comes, read, tell, tell_has, write

sys.path.insert(0, f"{TOP}/harness/client")

import links
import note
import stopping
import stories
from fleet import Fleet
from mirror import Copies
from queries import COPIES, COPIES_SENT, query
from records import COPY, COPY_OK, GOOD, GRANTED, Report, enveloped


def report_of(attempt, server, faults):
    """A report of one job, as the node says it: of 64 checked blocks."""
    return Report(struct.pack(">QQIIIIII", 9, attempt, server, 0, 64, faults, 0, 0) + b"".join(struct.pack(">I", it) for it in range(faults)))


def earlier_reports():
    """Reports of an earlier check of the run don't count for this one."""
    job_file("again.fio", jobs=1)
    reports = [report_of(4, 0, 0), report_of(4, 1, 0), report_of(5, 0, 2)]
    asked = SimpleNamespace(verify=lambda run, text: 5, settle=lambda *_: [GOOD, GOOD], take_reports=lambda: reports, ask_verdict=lambda *of: of, stands=lambda *_: "good")
    of, found = stories.check(asked, "again.fio", 9)
    tell("reports of the check that was asked for", (of, [(at, it.faults) for at, it in found.items()]), ((9, 5), [((0, 0), 2)]))


def copies_not_kept():
    """A mirror never says that it keeps the states: they aren't told as kept."""
    job_file("copies.fio", jobs=1, blocks=64, writes=64)
    servers = Servers("copies", 1, jobs=1)
    command = f"exec env DROPS={COPY_OK} {sys.executable} {shlex.quote(f'{HERE}/tapped.py')} mirror.tap {shlex.quote(f'exec {FLEET} mirror --note mirror.note')}"
    words = ["write", "copies.fio", "--note", "copies.note", "--after", "0.2", "--mirror", command, *servers.links()]
    status, printed, said = fleet_saying("the mirror keeps 0 of 1 states", *words)
    tell("states that the mirror doesn't keep", (status, number_in(printed) != "", "not all states are kept" in printed), (2, True, True))
    tell_has("how many it keeps", said, "the mirror keeps 0 of 1 states")
    servers.cut()


def slow_copies():
    """Copies that a mirror sends one behind the other for longer than a grace are waited for; where some are
    lost, no longer than that behind the last."""
    whole, clock = stopping.time, [0.0]
    stopping.time = SimpleNamespace(monotonic=lambda: clock[0]) # (which goes on by what is brought alone)
    for what, count, due in (("all of them", 6, True), ("one is lost", 5, False)):
        copies, found = Copies(), []
        copies.hear(bare(struct.pack(">Q", 3), kind=GRANTED))
        copies.hear(query(COPIES, COPIES_SENT.pack(3, 6)))
        threading.Thread(target=lambda: found.append(copies.await_all(3, 30, 1)), daemon=True).start()
        for at in range(count):
            time.sleep(0.2)
            clock[0] += 0.3
            copies.hear(bare(bytes(4) + struct.pack(">QII", 1, 0, at), kind=COPY))
        until = clock[0] + 5

        def is_over():
            clock[0] = min(clock[0] + 0.01, until)
            return bool(found)

        tell(f"copies that come slowly, {what}", (comes(is_over), found), (True, [due]))
    stopping.time = whole


def lost_copies():
    """Of the copies that came in a life those alone count in the next one that are in its note."""
    states = {(9, 0, 0): None, (9, 0, 1): None}
    data = b"".join(struct.pack(">I", 136) + b"FCV2" + struct.pack(">QII", *it) + bytes(116) for it in states)
    life = SimpleNamespace(copies=Copies(), kept=SimpleNamespace(read=lambda: b"FCC2" + bytes(28) + data))
    life.copies.came, life.copies.had = {(9, 0, 1), (9, 1, 1)}, {(9, 0, 0)}
    tell("a copy that isn't in the note", Fleet.copies_had(life), {*states})


def drawn_numbers():
    """Each new client's runs begin behind all earlier ones', and each renewal has a generation of its
    own."""
    before = time.time_ns()
    first, second = (note.numbers_of(note.first_note(0)) for _ in range(2))
    tell("the first note of a client has no generation, and runs behind the time", (first[0], first[1] > before, first[1] != second[1]), (0, True, True))
    tell("a run that was begun is among those used", note.numbers_of(note.first_note(1 << 63)), (0, 1 << 63))
    tell("three renewals, three generations", len({note.new_generation() for _ in range(3)}), 3)
    job_file("drawn.fio", jobs=1, blocks=64, writes=64)
    servers, runs = Servers("drawn", 1, jobs=1), []
    for name in ("first.note", "second.note"):
        status, printed, _ = fleet("write", "drawn.fio", "--note", name, "--after", "0.1", *servers.links())
        runs.append(int(number_in(printed) or 0))
        tell(f"a client on {name} writes", status, 0)
        servers.cut()
        servers.restart() # (till then they serve that fleet)
    tell("their runs are later ones", before < runs[0] < runs[1], True)
    servers.cut()


def short_writes():
    """A link that takes five bytes at a time is given each frame whole."""
    whole = os.write
    links.os = SimpleNamespace(**{**vars(os), "write": lambda to, data: whole(to, data[:5])})
    stream, sent = links.Stream("cat >>came"), [bare(b"%034d" % at) for at in range(50)]
    for it in sent:
        stream.send(it)
    due = b"".join(map(enveloped, sent))
    comes(lambda: os.path.exists("came") and os.path.getsize("came") == len(due))
    stream.kill()
    tell("whole frames", read("came") == due, True)


def options_first():
    """What the command line says comes before the address book."""
    job_file("book.fio", jobs=1, blocks=64, writes=64)
    servers = Servers("book", 1, jobs=1)
    link = servers.links()[1]
    write("fleet.toml", f"servers = ['{link}']\nnote = 'book.note'\noff = 'touch book-off'\non = 'touch book-on'\ncut = 'touch book-cut'\n")
    tell("a write by the book", fleet("write", "book.fio", "--after", "0.1")[0], 0)
    tell("which has its cut", (os.path.exists("book-cut"), os.path.exists("book.note")), (True, True))
    os.remove("book-cut")
    tell("another cut", fleet("write", "book.fio", "--after", "0.1", "--cut", "touch own-cut")[0], 0)
    tell("is made in the place of the book's", (os.path.exists("own-cut"), os.path.exists("book-cut")), (True, False))
    status, printed, _ = fleet("check", "book.fio", "--note", "own.note", "--wait", "2")
    tell("another note, which isn't there", (status, reports(printed), os.path.exists("own.note")), (2, {}, False))
    tell("another command to check by", fleet("check", "book.fio", "--server", "false", "--wait", "1")[0], 2)
    servers.cut()
