"""What comes over a fleet's links: frames, whole or not at all, and no part of one over a later
link."""
import fcntl
import glob
import io
import os
import select
import socket
import struct
import subprocess
import sys
import termios
import time

from serving import TOP, Servers, fleet, job_file
from trying import BLOCK, HANG, HERE, comes, read, tell

sys.path.insert(0, f"{TOP}/harness/client")

from links import Link
from queries import HELLO, QUERY_HELLO, WELCOME, WELCOME_HEAD, query
from records import enveloped, read_frame

# The fleet that these links say they are of.
FLEET_NUMBER = 4711


def bare(body, magic=b"FC", kind=1, way=(0, 0)):
    """A frame as a node has it, from one node to another."""
    return magic + bytes([1, kind]) + struct.pack(">III", *way, len(body)) + body


def frame(body, magic=b"FC", kind=1, way=(0, 0)):
    """A frame as it goes over a link."""
    return enveloped(bare(body, magic, kind, way))


def hello(server=0, fleet=FLEET_NUMBER, before=0, has_mirror=False):
    return enveloped(query(QUERY_HELLO, HELLO.pack(fleet, server, 1, before, has_mirror)))


def door(path):
    """A link to a server, which is welcome there."""
    link = socket.socket(socket.AF_UNIX)
    link.connect(path)
    greet(link)
    return link


def greet(link, whom=0):
    """Says hello, and waits for the welcome."""
    link.settimeout(HANG)
    link.sendall(hello(whom))
    welcome, length = b"", len(enveloped(query(WELCOME, bytes(WELCOME_HEAD.size))))
    while len(welcome) < length:
        welcome += link.recv(length - len(welcome)) or bytes(length)


def frames_in(data):
    """The frames that stand in these bytes, one behind the other, as a link reads them."""
    stream, found = io.BytesIO(data), []
    while one := read_frame(stream):
        found.append(enveloped(one))
    return found


def cut_links():
    """Links that end at each byte of a frame, at a server, and at the client; the next ones begin with
    a frame. A frame that comes byte by byte is one."""
    whole, cut = frame(b"whole"), frame(b"another one", kind=2)
    job_file("cut.fio", jobs=1, blocks=64, writes=64)
    servers = Servers("cut", 0, jobs=1)
    servers.count, servers.running = 1, [None]
    servers.start(0, {"NODE": f"{HERE}/logging_node.py", "LOG": "cut.log"})
    for length in range(1, len(cut)):
        with door("cut-0.note.socket") as link:
            tell(f"a link that ends after {length} bytes of a frame", ended_by(link, whole + cut[:length], True), True)
    tell("what a server's node is given", frames_given("cut.log", len(cut) - 1), [bare(b"whole").hex()] * (len(cut) - 1))
    with door("cut-0.note.socket") as link:
        tell("a frame that comes byte by byte", (sent_by_bytes(link, cut), frames_given("cut.log", len(cut))[len(cut) - 1 :]), (True, [bare(b"another one", kind=2).hex()]))
    servers.cut()
    tell("what the client's is", [frames_in(whole + cut[:length]) for length in range(len(cut) + 1)], [[whole]] * len(cut) + [[whole, cut]])
    next_links()


def frames_given(log, count):
    """The frames that a logging node was given, once they are so many, in hexadecimal."""
    until = time.monotonic() + HANG
    while read(log).count(b"\n2 ") < count and time.monotonic() < until:
        time.sleep(0.05)
    return [line.split()[1] for line in read(log).decode().splitlines() if line.startswith("2 ")]


def full_pipes():
    """More comes than the node's pipe has room for, and goes on coming while that is given: the node is
    given all of it, in its order."""
    servers = Servers("full", 0, jobs=1)
    servers.count, servers.running = 1, [None]
    servers.start(0, {"NODE": f"{HERE}/logging_node.py", "LOG": "full.log"})
    sent = [bare(b"%08d" % at * (1 + at * 37 % 130)) for at in range(12000)]
    with door("full-0.note.socket") as link:
        try:
            link.sendall(b"".join(map(enveloped, sent)))
        except OSError:
            pass # (the server has ended)
        tell("a node that is slower than its link", frames_given("full.log", len(sent)) == [it.hex() for it in sent], True)
    servers.cut()


def next_links():
    """The client's links end in the middle of a frame, again and again."""
    os.mkdir("fronts")
    sent = [bare(b"%034d" % 0)]
    link = Link("head -c 165 >fronts/$$; true", lambda _: None, lambda: sent[0])
    fronts = lambda: [data for data in map(read, glob.glob("fronts/*")) if len(data) == 165]

    def have_ended():
        sent.append(bare(b"%034d" % len(sent)))
        link.stream.is_welcome = True
        link.send(sent[-1])
        time.sleep(0.015) # (a link that brings nothing is begun anew less and less often)
        return len(fronts()) > 2

    tell("links that ended in the middle of a frame", comes(have_ended), True)
    link.close()
    fronts = fronts()
    tell("each began with a frame, and had whole ones", [data for data in fronts if not set(frames_in(data)) <= set(map(enveloped, sent)) or len(frames_in(data)) != 2], [])


def sent_by_bytes(link, data):
    """Sends bytes, each once the other end has read those before, and returns whether it took all."""
    try:
        for at in range(len(data)):
            link.sendall(data[at : at + 1])
            comes(lambda: not any(fcntl.ioctl(link, termios.TIOCOUTQ, bytes(4))))
    except OSError:
        return False # (the link has ended)
    return True


def ended_by(link, data, is_last=False):
    """Whether a link ends, and nothing is answered, once this has come over it, and no more if it is
    the last."""
    try:
        link.sendall(data)
        if is_last:
            link.shutdown(socket.SHUT_WR)
        return link.recv(1) == b""
    except ConnectionResetError:
        return True
    except TimeoutError:
        return False


def strangers():
    """What isn't a frame or a query ends its link, and is said; the next link is as any other."""
    job_file("strange.fio", jobs=1, blocks=64, writes=64)
    servers = Servers("strange", 1, jobs=1)
    for what, data in (
        ("another protocol", b"GET / HTTP/1.1\r\nHost: a\r\n\r\n"),
        ("another magic", frame(b"", b"fc")),
        ("a frame without an envelope", bare(b"whole")),
        ("an envelope that is too long", b"FL\2\0" + b"\xff\xff\xff\xff" + bytes(20)),
        ("a frame that is too long", frame(bytes(1058))),
        ("a changed bit", bytes([*frame(b"whole")[:-1], frame(b"whole")[-1] ^ 1])),
        ("a changed length", bytes([*frame(b"whole")[:7], frame(b"whole")[7] ^ 1, *frame(b"whole")[8:], 0])),
        ("an unknown query", frame(b"", b"FH", 99)),
        ("a query for too much", frame(struct.pack(">IIII", 0, 0, 2000, BLOCK), b"FH", 3)),
        ("a query that is cut", frame(bytes(15), b"FH", 3)),
    ):
        with door("strange-0.note.socket") as link:
            tell(f"{what} ends the link", ended_by(link, data), True)
    said = read(servers.said(0))
    tell("and is said, where it is no frame, and where it isn't what was sent", (said.count(b"is no frame"), said.count(b"isn't what was sent")), (3, 4))
    servers.cut()
    servers.start(0)
    tell("then a fleet writes", fleet("write", "strange.fio", "--note", "strange.note", "--after-writes", "64", *servers.links())[0], 0)
    servers.cut()


def brought(of, least=0, count=300):
    """What comes back of so many frames over a bad link, whose other end gives each back: their
    numbers, in the order in which they come, and whether the link has ended in the middle of one. Of so
    many each is waited for, and more than these until none comes for some seconds."""
    shares = [it for name in ("lose", "repeat", "late", "cut", "hang") for it in (f"--{name}", str(of.get(name, 0)))]
    with subprocess.Popen([f"{TOP}/tools/bad-link", *shares, "cat"], stdin=subprocess.PIPE, stdout=subprocess.PIPE) as link:
        try:
            os.write(link.stdin.fileno(), b"".join(frame(struct.pack(">I", at)) for at in range(count)))
        except BrokenPipeError:
            pass
        data = b""
        while select.select([link.stdout], [], [], HANG if len(frames_in(data)) < least else 3)[0] and (more := os.read(link.stdout.fileno(), 65536)):
            data += more
        link.kill()
    found = frames_in(data)
    return [struct.unpack(">I", it[-4:])[0] for it in found], len(data) > sum(map(len, found))


def harmed_links():
    """A bad link loses, repeats, brings late and ends in the middle of a frame, each by its share, on
    the way there and back; without any it brings all."""
    tell("a link that does no harm", brought({}, 300), ([*range(300)], False))
    tell("each frame is lost", brought({"lose": 1}), ([], False))
    tell("each frame comes twice, both ways", brought({"repeat": 1}, 1200), ([at for at in range(300) for _ in range(4)], False))
    numbers, _ = brought({"lose": 0.3}, 61)
    tell("some are lost, and the others come in their order", (60 < len(numbers) < 240, numbers == sorted({*numbers})), (True, True))
    numbers, _ = brought({"late": 0.3}, 151)
    tell("some come late, and none twice", (numbers != sorted(numbers), len(numbers) == len({*numbers}), len(numbers) > 150), (True, True, True))
    numbers, is_cut = brought({"hang": 0.05})
    tell("a link hangs behind some frames, whole", (numbers == [*range(len(numbers))], len(numbers) < 300, is_cut), (True, True, False))
    tell("the first frame ends the link", brought({"cut": 1})[0], [])
    tell("a link ends in the middle of a frame", any(brought({"cut": 0.02})[1] for _ in range(20)), True)
