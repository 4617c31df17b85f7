"""The notes of a fleet's nodes, durable by order: what a node saves is on the disk before anything
that it says behind it leaves the machine."""
import os
import shlex
import socket
import subprocess
import sys

from fleet_links import door, frame, greet
from serving import FLEET, Servers, fleet, job_file
from trying import HANG, HERE, LIAR, QUIET, await_file, read, tell, write

SAVED, HEAD = b"S" * 4096, 12 # (of an envelope)
NODE = f"{HERE}/sending_node.py"


def note_at(link, note):
    """What a note holds as a frame comes over a link: its last bytes, and none where there is none."""
    link.settimeout(HANG)
    came = link.recv(HEAD + 2, socket.MSG_WAITALL)
    return came[HEAD:], read(note)[-len(SAVED) :] if os.path.exists(note) else b""


def saved_before_sent():
    """A node says a save, a frame behind it, and no end: as the frame comes, the note holds what was
    saved. Of a server, a mirror and the client."""
    job_file("sent.fio", jobs=1, blocks=64, writes=64)
    servers = Servers("sent", 0, jobs=1)
    servers.count, servers.running = 1, [None]
    servers.start(0, {"NODE": NODE, "TO": "8"})
    with door("sent-0.note.socket") as link:
        link.sendall(frame(b"any"))
        tell("a server", note_at(link, servers.note(0)), (b"FC", SAVED))
    servers.cut()
    ours, theirs = socket.socketpair()
    mirror = subprocess.Popen([FLEET, "mirror", "--note", "mirror.note"], env={**os.environ, "NODE": NODE, "TO": "8"}, stdin=theirs, stdout=theirs, stderr=subprocess.DEVNULL)
    greet(ours, 9)
    ours.sendall(frame(b"any"))
    tell("a mirror", note_at(ours, "mirror.note"), (b"FC", SAVED))
    mirror.kill()
    mirror.wait()
    server = f"exec {shlex.quote(sys.executable)} {shlex.quote(f'{HERE}/standing_server.py')} 'cp client.note seen; touch came'"
    words = [FLEET, "write", "sent.fio", "--note", "client.note", "--server", server, "--after", "1"]
    client = subprocess.Popen(words, env={**os.environ, "NODE": NODE, "TO": "0"}, **QUIET)
    await_file("came")
    client.kill()
    client.wait()
    tell("the client", read("seen")[-len(SAVED) :] if os.path.exists("seen") else b"", SAVED)


def synced(log, note):
    """Whether each time that this note was kept the file was synced, and then its folder; and how often."""
    lines = read(log).decode().splitlines()
    at = [number for number, line in enumerate(lines) if line == f"synced {os.path.abspath(note)}.new"]
    folders = [lines[it + 1 : it + 2] for it in at]
    return all(it == [f"synced {os.getcwd()}"] for it in folders), len(at)


def synced_notes():
    """The client's note, a server's and a mirror's are on the disk, and then their names."""
    job_file("synced.fio", jobs=1, blocks=64, writes=64)
    way = {"LD_PRELOAD": LIAR, "LIE_SYNCS": "1"}
    servers = Servers("synced", 0, jobs=1)
    servers.count, servers.running = 1, [None]
    servers.start(0, {**way, "LIE_LOG": "server.log"})
    mirror = f"exec env LD_PRELOAD={shlex.quote(LIAR)} LIE_SYNCS=1 LIE_LOG=mirror.log {shlex.quote(FLEET)} mirror --note mirror.note"
    status, printed, said = fleet("write", "synced.fio", "--note", "synced.note", "--after", "0.5", "--mirror", mirror, *servers.links(), env={**way, "LIE_LOG": "client.log"})
    tell("a fleet with a mirror writes", status, 0)
    fleet("status", "--note", "synced.note", "--mirror", mirror.replace("mirror.log", "again.log"), *servers.links(), env={**way, "LIE_LOG": "next.log"})
    servers.cut()
    for log, note in (("next.log", "synced.note"), ("again.log", "mirror.note")):
        lines = [f"synced {os.path.abspath(note)}", f"synced {os.getcwd()}"]
        tell(f"{note} that is read is synced first, and its folder", read(log).decode().splitlines()[:2], lines)
    for log, note in (("client.log", "synced.note"), ("server.log", servers.note(0)), ("mirror.log", "mirror.note")):
        kept, count = synced(log, note)
        tell(f"{note} is synced, and then its folder", (kept, count > 0), (True, True))
