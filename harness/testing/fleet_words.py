"""What a fleet's client takes as its words, and how it says what it can't do: never by a status that
means something else."""
import os
import shlex
import struct
import threading
import time

from fleet_links import door, frame
from serving import FLEET, SERVER, Servers, earliest, fleet, fleet_in_time, fleet_saying, job_file, reports
from trying import BLOCK, read, run, tell, tell_has, write


def strange_words():
    """Words and books that can't be taken end with status 2, and no traceback: status 1 means faults."""
    job_file("words.fio", jobs=1, blocks=64, writes=64)
    check = ("check", "words.fio", "--note", "words.note")
    nine = [it for _ in range(9) for it in ("--server", "false")]
    for what, words, why in (
        ("nine servers", (*check, *nine), "at most, and here are 9"),
        ("a run below 1", (*check, "--server", "false", "--run", "-1"), "run"),
        ("a moment that is none", ("cycle", "words.fio", "f", "--note", "n", "--server", "false", "--off", "true", "--on", "true", "--every", "x"), "this wants seconds"),
        ("a note that isn't there", (*check, "--server", "false"), "there is no such note"),
    ):
        status, printed, said = fleet(*words)
        tell(what, (status, printed, why in said, "Traceback" in said), (2, "", True, False))
    for what, book, why in (
        ("a text for the servers", 'servers = "false"\nnote = "n"\n', "servers: this wants a list"),
        ("numbers for servers", 'servers = [1]\nnote = "n"\n', "servers: this wants a list"),
        ("a number for the note", 'servers = ["false"]\nnote = 5\n', "note: this wants a text"),
        ("an unknown word", 'server = ["false"]\nnote = "n"\n', "server: there is no such word"),
        ("no TOML", "servers = [", "book"),
        ("bytes that aren't UTF-8", b'note = "\xff"\n', "book"),
    ):
        write("book", book)
        status, printed, said = fleet("check", "words.fio", "--book", "book")
        tell(what, (status, printed, why in said, "Traceback" in said), (2, "", True, False))


def faults_first():
    """A fault is told by the status though another server is away."""
    job_file("first.fio", jobs=1, blocks=64, writes=64)
    servers = Servers("first", 2, jobs=1)
    fleet("write", "first.fio", "--note", "first.note", "--after-writes", "128", *servers.links())
    servers.cut()
    data = bytearray(read("first-0-0"))
    data[earliest(data) * BLOCK + 9] ^= 1
    write("first-0-0", bytes(data))
    servers.start(0)
    status, printed, _ = fleet_in_time(lambda _, printed, __: reports(printed), "check", "first.fio", "--note", "first.note", *servers.links())
    tell("a fault at one server, and the other one is away", (status, printed.splitlines()[-1].split(":")[1].split(",")[0].strip(), [it[1] for it in reports(printed).values()]), (1, "faults", [1]))
    servers.kill(0)


def new_notes(servers):
    """Starts servers anew over notes that there weren't yet."""
    servers.cut()
    for at in range(servers.count):
        os.remove(servers.note(at))
    servers.restart()


def other_fleets():
    """A server serves the fleet that has come first until it is started anew, and says so to another
    one; a link that leads to another server says that; a note knows how many servers there are."""
    job_file("other.fio", jobs=1, blocks=64, writes=64)
    servers = Servers("other", 2, jobs=1)
    words = ["write", "other.fio", "--after-writes", "128"]
    tell("a fleet", fleet(*words, "--note", "one.note", *servers.links())[0], 0)
    status, printed, said = fleet_saying("server 0 serves another fleet", *words, "--note", "two.note", *servers.links())
    tell("another fleet", (status, printed, "server 0 serves another fleet, since it was started" in said), (2, "", True))
    links = servers.links()
    status, printed, said = fleet_saying(("this link leads to server 1", "this link leads to server 0"), "check", "other.fio", "--note", "one.note", *links[2:], *links[:2])
    tell("links that are swapped", (status, "this link leads to server 1" in said, "this link leads to server 0" in said), (2, True, True))
    status, printed, said = fleet("check", "other.fio", "--note", "one.note", *links[:2])
    tell("a server less", (status, printed, "a fleet of 2 servers, and here are 1" in said), (2, "", True))
    servers.cut()
    servers.restart()
    tell("the other fleet, once they are started anew", fleet(*words, "--note", "two.note", *servers.links())[0], 0)
    tell("and the first one, till they are", fleet("check", "other.fio", "--note", "one.note", "--wait", "3", *servers.links())[0], 2)
    servers.cut()
    mirrors = ["--mirror", f"exec {shlex.quote(FLEET)} mirror --note other.mirror"]
    servers.restart()
    status, printed, said = fleet_saying("the note of server 0 is of another fleet", *words, "--note", "three.note", *mirrors, *servers.links())
    tell("a fleet with a mirror, over the notes of another one", (status, printed, "the note of server 0 is of another fleet, and one with a mirror wants new notes" in said), (2, "", True))
    new_notes(servers)
    tell("a fleet with a mirror", fleet(*words, "--note", "three.note", *mirrors, *servers.links())[0], 0)
    tell("a client that begins anew over the mirror is of its fleet", fleet(*words, "--note", "four.note", *mirrors, *servers.links())[0], 0)
    new_notes(servers)
    new = ["--mirror", f"exec {shlex.quote(FLEET)} mirror --note new.mirror"]
    tell("another fleet, with a mirror of its own", fleet(*words, "--note", "five.note", *new, *servers.links())[0], 0)
    status, _, said = fleet_saying("this mirror keeps the states of another fleet", "check", "other.fio", "--note", "five.note", *mirrors, *servers.links())
    tell("and with the first one's", (status, "this mirror keeps the states of another fleet" in said), (2, True))
    servers.cut()


def hung_links():
    """A link that hangs is ended, and begun anew; and one that takes nearly nothing keeps no other one
    out."""
    job_file("hung.fio", jobs=1, blocks=64, writes=100_000)
    servers = Servers("hung", 1, jobs=1)
    command = f"{shlex.quote(SERVER)} link --note {servers.note(0)} 2>/dev/null"
    hangs = f"[ -e hung ] && exec {command}; touch hung; {command} | (head -c 20000; exec sleep 600)"
    status, _, said = fleet("write", "hung.fio", "--note", "hung.note", "--after", "8", "--server", hangs)
    tell("a link whose answers stop", (status, os.path.exists("hung")), (0, True))
    servers.cut()


def shut_out():
    """A link whose other end takes four bytes now and then doesn't keep out the one that takes its
    place."""
    write("shut-0-0", bytes(4 << 20))
    servers = Servers("shut", 1, jobs=1)
    # (on a slow machine any turn may take a while; one that is kept out is so for five seconds in
    # each)
    tell("the next link is welcome at once", any(beside_a_slow_one() < 3 for _ in range(5)), True)
    servers.cut()


def beside_a_slow_one():
    """How many seconds a link takes to be welcome while another one is served that takes nearly
    nothing."""
    slow, ended = door("shut-0.note.socket"), threading.Event()

    def read_slowly():
        while not ended.wait(0.1) and slow.recv(4):
            pass

    reading = threading.Thread(target=read_slowly, daemon=True)
    reading.start()
    for _ in range(4): # (a mebibyte is more than there is room for: the server waits for who takes it)
        slow.sendall(frame(struct.pack(">IIII", 0, 0, 256, BLOCK), b"FH", 3))
    time.sleep(0.5)
    begun = time.monotonic()
    with door("shut-0.note.socket"):
        taken = time.monotonic() - begun
    ended.set()
    reading.join()
    slow.close()
    return taken


def strange_starts():
    """Files of one's own are never what a link leads to."""
    write("theirs", "as it was")
    for name in ("a.note.lock", "b.note.new"):
        os.symlink("theirs", name)
    job_file("links.fio", jobs=1, blocks=64, writes=64)
    for note in ("a.note", "b.note"):
        status, printed, said = fleet("write", "links.fio", "--note", note, "--server", "false", "--wait", "1")
        tell(f"{note}: a link in the place of its own", (status, printed, read("theirs"), "Traceback" in said), (2, "", b"as it was", False))


def left_out():
    """What isn't checked of what has to be is no sound verdict: a job that the text of the check hasn't, one
    whose every write was in flight, and one that no state is kept of."""
    job_file("left.fio", jobs=2, blocks=64, writes=64)
    job_file("less.fio", jobs=1, blocks=64, writes=64)
    job_file("more.fio", jobs=3, blocks=64, writes=64)
    servers = Servers("left", 2)
    fleet("write", "left.fio", "--note", "left.note", "--after-writes", "256", *servers.links())
    servers.cut()
    for at in range(2):
        write(f"left-{at}-1", bytes(64 * BLOCK))
    servers.restart()
    status, printed, _ = fleet("check", "less.fio", "--note", "left.note", *servers.links())
    tell("a job file of a job less", (status, [line.split(": ", 1)[1] for line in printed.splitlines()[1:4:2]]), (2, ["its state is kept, and it wasn't asked for"] * 2))
    tell_has("the word", printed.splitlines()[-1], "not checked whole, 128 checked, 0 faults")
    status, printed, _ = fleet("check", "left.fio", "--note", "left.note", *servers.links())
    tell("the whole", (status, [it[1] for it in reports(printed).values()]), (1, [0, 64, 0, 64]))
    servers.cut()


def long_paths():
    """A path that is too long for a socket is refused before a target is looked at."""
    note = "n" * 120
    status, _, said = run("0", "long-target", "--note", note, program=SERVER)
    tell("a note of a long name", (status, "--socket says another one" in said, os.path.exists("long-target")), (2, True, False))
