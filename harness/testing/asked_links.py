"""What goes over the link of an agent that reads: what a witness asks for, request by request, and the answers, in
bytes by the page."""
import fcntl
import os
import re
import shlex
import struct
import subprocess
import sys
import termios

from crc32c import crc32c
from trying import AGENT, BLOCK, HANG, LIAR, comes, report, tell, write
from witness import CHUNK, PASS_ON, WELCOME, link, witness

BYTES, MISSED, END = 1, 2, 3
WHY, DRIVE = 256, 256
# A region of so many blocks that a bit of each would be more than an agent is to have.
MANY = 400_000_000


def hello(blocks, offset=0, stride=BLOCK):
    """What a witness says that reads a region."""
    numbers = (0, 1, BLOCK, blocks, offset, stride, 0, 1, 0, 0, 0)
    said = b"FCHELLO6" + struct.pack(">11Q", *numbers) + bytes(DRIVE)
    return said + struct.pack(">I", crc32c(said))


def request(first, count, asked, flips=0):
    """A request of these of so many blocks from the first one on."""
    bits = bytearray((count + 7) // 8)
    for block in asked:
        bits[(block - first) // 8] |= 1 << (block - first) % 8
    said = struct.pack(">QQ", first, count) + bits
    return said + struct.pack(">I", crc32c(said) ^ flips)


class Agent:
    """An agent that reads a region, and what it says."""

    def __init__(self, target, *words, env=None, **region):
        self.process = subprocess.Popen([AGENT, target, *words], stdin=subprocess.PIPE, stdout=subprocess.PIPE, stderr=subprocess.PIPE, env={**os.environ, **(env or {})})
        self.say(hello(**region))
        self.welcome = self.process.stdout.read(WELCOME)

    def say(self, said):
        """Says bytes, which nobody hears where it has ended."""
        try:
            self.process.stdin.write(said)
            self.process.stdin.flush()
        except BrokenPipeError:
            pass

    def say_by_bytes(self, said):
        """Says bytes, each once it has read those before."""
        for at in range(len(said)):
            self.say(said[at : at + 1])
            comes(lambda: not self.unread() or self.process.poll() is not None)

    def unread(self):
        """How many bytes were said that it hasn't read."""
        return struct.unpack("i", fcntl.ioctl(self.process.stdin, termios.FIONREAD, bytes(4)))[0]

    def ask(self, first, count, asked):
        """Says a request, and returns the answer."""
        self.say(request(first, count, asked))
        return self.answer()

    def answer(self):
        """The answer to a request: the blocks' bytes together, which can't be read, and how many parts it has."""
        data, missed, parts = b"", [], 0
        while True:
            head = self.process.stdout.read(CHUNK)
            if len(head) < CHUNK:
                return data, "the link ended", parts
            kind, number, sum_of_it = struct.unpack(">QQQ", head)
            text = self.process.stdout.read({BYTES: number, MISSED: WHY, END: 0}[kind])
            if sum_of_it != crc32c(head[:16] + text):
                raise ValueError(f"a part of kind {kind} has another sum")
            if kind == END:
                return data, missed, parts
            parts += 1
            data += text if kind == BYTES else b""
            missed += [(number, text.rstrip(b"\0").decode())] if kind == MISSED else []

    def end(self):
        """Closes the link: its status, what it still printed, and what it said."""
        printed, said = self.process.communicate(timeout=HANG)
        return self.process.returncode, printed, said.decode()

    def most_memory(self):
        """As much as it ever had of addresses, in KiB; 0 where it has ended."""
        with open(f"/proc/{self.process.pid}/status", encoding="utf-8") as it:
            found = re.search(r"^VmPeak:\s+(\d+) kB", it.read(), re.M)
        return int(found[1]) if found else 0


def block_of(number):
    return struct.pack(">Q", number + 1) * (BLOCK // 8)


def put_blocks(target, blocks, numbers):
    with open(target, "wb") as it:
        it.truncate(blocks * BLOCK)
        for number in numbers:
            it.seek(number * BLOCK)
            it.write(block_of(number))


def many_requests():
    """One link serves many requests, of blocks anywhere in a region, and an agent has no more memory for many blocks
    than for few."""
    tiles = {first: [first + at for at in asked] for first, asked in ((0, (0, 1, 2, 9, 63)), (MANY - 64, (0, 7, 8, 62, 63)), (MANY // 2, (31, 33)), (77, (5,)))}
    put_blocks("many", MANY, (it for asked in tiles.values() for it in asked))
    few, agent = Agent("many", blocks=64), Agent("many", blocks=MANY)
    few.ask(0, 64, tiles[0])
    for turn in range(3):
        for first, asked in tiles.items():
            data, missed, _ = agent.ask(first, 64, asked)
            tell(f"turn {turn}: the blocks from {first} on", (data == b"".join(map(block_of, asked)), missed), (True, []))
    tell("a request of one block", agent.ask(9, 1, [9])[:2], (block_of(9), []))
    tell("a request of nothing", agent.ask(0, 64, []), (b"", [], 0))
    tell("a request of as many blocks as there may be", agent.ask(0, 65536, [0, 9, 65535])[0], block_of(0) + block_of(9) + bytes(BLOCK))
    agent.say_by_bytes(request(9, 1, [9]))
    data, missed, _ = agent.answer()
    tell("a request that comes byte by byte", (data == block_of(9), missed), (True, []))
    tell("it has no more memory", 0 < agent.most_memory() < few.most_memory() + 1024, True)
    tell("it ends with its link", agent.end(), (0, b"", ""))
    few.end()


def bad_requests():
    """What came otherwise than it was sent, or asks for blocks that there aren't, ends the agent: it gives back
    nothing. A link may end between two requests, and not within one."""
    put_blocks("bad", 128, range(128))
    most = 65536
    for what, said, why in (
        ("another sum", request(0, 64, [3], flips=1), "came otherwise than it was sent"),
        ("another bit", request(0, 64, [3])[:16] + b"\x40" + request(0, 64, [3])[17:], "came otherwise than it was sent"),
        ("a block behind the last", request(65, 64, [65]), "asks for blocks that there aren't"),
        ("a front behind the last", request(128, 1, [128]), "asks for blocks that there aren't"),
        ("a front that is none", struct.pack(">QQ", 2**64 - 2, 4), "asks for blocks that there aren't"),
        ("no block", request(0, 0, []), "asks for blocks that there aren't"),
        ("more blocks than there are", struct.pack(">QQ", 0, 129), "asks for blocks that there aren't"),
        ("a part of a request", request(0, 64, [3])[:-1], "it ended within what the witness asks for"),
        ("a part of its head", request(0, 64, [3])[:7], "it ended within what the witness asks for"),
    ):
        agent = Agent("bad", blocks=128)
        tell(f"{what}: a request before it", agent.ask(0, 128, [5])[0], block_of(5))
        agent.say(said)
        status, printed, told = agent.end()
        tell(f"{what}: the agent's end", (status, printed, why in told), (2, b"", True))
    agent = Agent("bad", blocks=2 * most)
    agent.say(request(0, most + 1, [3]))
    tell("more blocks than a job has", (agent.end()[0], "asks for blocks that there aren't"), (2, "asks for blocks that there aren't"))


def unread_answers():
    """A block that can't be read is told by its number and why, at its place among the others; where a target ends
    within the request, so is each behind that."""
    put_blocks("gaps", 128, range(128))
    env = {"LD_PRELOAD": LIAR, "LIE_TARGET": "/gaps", "LIE_UNREADABLE": f"{7 * BLOCK},{8 * BLOCK},{100 * BLOCK + 5}"}
    asked, bad = [0, 6, 7, 8, 9, 64, 100, 127], [7, 8, 100]
    for way in ({}, {"LIE_RING": "1"}):
        agent = Agent("gaps", env={**env, **way}, blocks=128)
        data, missed, _ = agent.ask(0, 128, asked)
        tell(f"blocks that can't be read, {way}", missed, [(it, "Input/output error") for it in bad])
        tell(f"the others, {way}", data == b"".join(block_of(it) for it in asked if it not in bad), True)
        agent.end()
    os.truncate("gaps", 70 * BLOCK)
    agent = Agent("gaps", blocks=128)
    data, missed, _ = agent.ask(0, 128, asked)
    tell("a target that ends", (len(data), missed), (6 * BLOCK, [(it, "the target ends there") for it in (100, 127)]))
    agent.end()


def stopped_answers():
    """An agent that is killed within an answer, whose link ends there, or that answers with less, or other blocks,
    than it was asked for: the check is made again, and no drive is blamed."""
    tell("a run", witness("write", "two.fio", "as", *link("at"))[0], 0)
    status, printed, said = witness("check", "two.fio", "as", *link("at"))
    tell("its check", (status, printed), (0, report([])))
    once = "[ -e once ] && exec {0} at; touch once; "
    short = WELCOME + CHUNK + 9 * BLOCK + 11
    write("answers.py", ANSWERS)
    agent = Agent("at", blocks=64)
    write("welcome", agent.welcome)
    agent.end()
    answers = f"{sys.executable} answers.py"
    for what, way in (
        ("a link that ends within a block", f"{{0}} at | {PASS_ON} {short}"),
        ("an answer of nothing", f"{answers} nothing"),
        ("an answer that lacks a block", f"{answers} lacks"),
        ("an answer of too many blocks", f"{answers} more"),
        ("another block that can't be read", f"{answers} other"),
    ):
        command = (once + way).format(shlex.quote(AGENT))
        status, printed, said = witness("check", "two.fio", "as", "--link", command, "--wait", str(HANG), "--quiet", "5000")
        tell(what, (status, printed, "the check begins anew" in said), (0, report([]), True))
        os.remove("once")
    tell("a longer run", witness("write", "long.fio", "ls", *link("lt"))[0], 0)
    killed = f"(sh -c 'echo $PPID' >victim; exec {{0}} lt) | ({PASS_ON} 3000000; kill -KILL $(cat victim))"
    command = (once.replace(" at", " lt") + killed).format(shlex.quote(AGENT))
    status, printed, said = witness("check", "long.fio", "ls", "--link", command, "--wait", str(HANG), "--quiet", "5000")
    tell("an agent that is killed within an answer", (status, printed, "the check begins anew" in said), (0, report([], 4096), True))


# An agent that says what another one said as a welcome, and answers with blocks of zeros.
ANSWERS = f"""import os, struct, sys
sys.path.insert(0, {os.path.dirname(os.path.realpath(__file__))!r})
from crc32c import crc32c
def part(kind, number, text=b""):
    head = struct.pack(">QQ", kind, number)
    return head + struct.pack(">Q", crc32c(head + text)) + text
sys.stdin.buffer.read({8 + 88 + DRIVE + 4})
os.write(1, open("welcome", "rb").read())
sys.stdin.buffer.read(16 + 8 + 4)
blocks = {{"nothing": 0, "lacks": 63, "more": 65, "other": 0}}[sys.argv[1]]
if sys.argv[1] == "other":
    sys.stdout.buffer.write(part({MISSED}, 1, b"nothing".ljust({WHY}, bytes(1))))
    blocks = 62
if blocks:
    sys.stdout.buffer.write(part({BYTES}, blocks * {BLOCK}, bytes(blocks * {BLOCK})))
sys.stdout.buffer.write(part({END}, 0))
sys.stdout.buffer.flush()
sys.stdin.buffer.read()
"""
