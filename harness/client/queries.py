"""What this harness asks a server's beside the frames of the nodes, over the same link, and what it
is answered: how many writes have ended, and what a target holds. harness/server/queries.h has the
bytes. No node hears of it, and no verdict of a node rests on it: what is lost is asked again. A mirror's
says unasked how many copies its node sent."""
import secrets
import struct
import threading
import time

from stopping import wait_for

# The kinds of queries and answers; the head, and what says which blocks are wanted.
QUERY_ENDS, ENDS, QUERY_BLOCKS, BLOCKS, UNREAD = range(1, 6)
QUERY_HELLO, WELCOME, QUERY_FIT, FIT, QUERY_FLUSH, FLUSHED, UNFLUSHED = range(7, 14)
HEAD, WANTED = 16, 16
# What a mirror's harness says behind a generation that is granted: this kind, the generation, and how
# many copies were sent behind it.
COPIES, COPIES_SENT = 6, struct.Struct(">QI")
# What an answer begins with, how many jobs it has, and how many bytes checks have read; what it has of a
# job: its number, its last run, and its writes that are done and failed; and what
# is asked of one that is to be written: its number, the size of a block, and how many there are.
ROWS, ROW, WISH = struct.Struct(">IQ"), struct.Struct(">IQQQ"), struct.Struct(">III")
# Which job's target is to be flushed, and a number that is drawn: an answer to an earlier one is none.
FLUSH = struct.Struct(">IQ")
# Who says hello: the fleet, the server that it is for, how many there are, the fleet whose place it
# takes, or 0, and whether it has a mirror, 1 or 0. Who is here: the number of a server, or of a mirror, and the fleet that it serves, 0 where
# there is none yet.
HELLO, WELCOME_HEAD = struct.Struct(">QIIQI"), struct.Struct(">IQ")
# So long an answer is waited for before it is asked for again, so many bytes are asked for at once,
# and so long a server that answers nothing is taken to tell nothing.
AGAIN, AT_ONCE, SILENT = 3, 1 << 19, 5


def is_answer(frame):
    return frame[:2] == b"FH"


def query(kind, body=b""):
    return b"FH" + bytes([1, kind]) + bytes(8) + struct.pack(">I", len(body)) + body


def is_welcome(frame):
    return is_answer(frame) and frame[3] == WELCOME


def welcome(me, fleet, why=""):
    return query(WELCOME, WELCOME_HEAD.pack(me, fleet) + why.encode())


class Welcome:
    """Who is at the other end of a link, and why a hello isn't welcome there, or nothing."""

    def __init__(self, answer):
        body = answer[HEAD:].ljust(WELCOME_HEAD.size, b"\0")
        self.me, self.fleet = WELCOME_HEAD.unpack(body[: WELCOME_HEAD.size])
        self.why = body[WELCOME_HEAD.size :].decode(errors="replace")


class Ends:
    """The writes of a run at one server that are done, and that failed, and why the first of these did."""

    def __init__(self, done=0, failed=0, why=""):
        self.done, self.failed, self.why = done, failed, why


class Answers:
    """What one server has answered last. An answer that can't be read is none."""

    def __init__(self, link):
        self.link, self.changed = link, threading.Condition()
        self.ends, self.why, self.came, self.grew, self.blocks, self.fit = {}, "", None, None, {}, None
        self.flushes = {}
        self.read, self.read_at = 0, None # bytes for checks, and when they grew

    def hear(self, answer):
        kind, body = answer[3], answer[HEAD:]
        with self.changed:
            if kind == ENDS:
                self.take_ends(body)
            elif kind == FIT:
                self.fit = body.decode(errors="replace")
            elif kind in (BLOCKS, UNREAD):
                self.blocks[body[:WANTED]] = kind, body[WANTED:]
            elif kind in (FLUSHED, UNFLUSHED):
                self.flushes[body[: FLUSH.size]] = kind == FLUSHED, body[FLUSH.size :].decode(errors="replace")
            self.changed.notify_all()

    def take_ends(self, body):
        count, read = ROWS.unpack(body[: ROWS.size]) if len(body) >= ROWS.size else (-1, 0)
        rows, why = body[ROWS.size : ROWS.size + count * ROW.size], body[ROWS.size + count * ROW.size :]
        if count >= 0 and len(rows) == count * ROW.size:
            self.read_at, self.read = time.monotonic() if read > self.read else self.read_at, read
            before, self.ends = self.ends, {job: (run, done, failed) for job, run, done, failed in ROW.iter_unpack(rows)}
            self.why, self.came = why.decode(errors="replace"), time.monotonic()
            self.grew = self.came if before and before != self.ends else self.grew

    def ask_ends(self):
        self.link.send(query(QUERY_ENDS))

    def last_run(self):
        """The last run of which a write has ended there, by what came last, or 0."""
        with self.changed:
            return max((run for run, _, _ in self.ends.values()), default=0)

    def reads_now(self):
        """Whether a check has read there within the last seconds."""
        with self.changed:
            return self.read_at is not None and time.monotonic() - self.read_at < SILENT

    def writes_now(self):
        """The run of which writes have ended there within the last seconds, or 0."""
        with self.changed:
            is_growing = self.grew and time.monotonic() - self.grew < SILENT
            return max((run for run, _, _ in self.ends.values()), default=0) if is_growing else 0

    def ends_of(self, run):
        """The ends of a run's writes, by what came last; None where nothing has come for some seconds."""
        with self.changed:
            if self.came is None or time.monotonic() - self.came > SILENT:
                return None
            rows = [(done, failed) for of, done, failed in self.ends.values() if of == run]
            failed = sum(failed for _, failed in rows)
            return Ends(sum(done for done, _ in rows), failed, self.why if failed else "")

    def ask_fit(self, wishes, wait):
        """Returns why jobs of such a number, size of a block and number of blocks can't be written there,
        or no words where they can; None where there is no answer for so long."""
        until, asked = time.monotonic() + wait, query(QUERY_FIT, b"".join(WISH.pack(*it) for it in wishes))
        with self.changed:
            self.fit = None
            while self.fit is None and time.monotonic() < until:
                self.link.send(asked)
                wait_for(self.changed, lambda: self.fit is not None, min(1, wait))
            return self.fit

    def ask_flush(self, job, wait):
        """Has the target of a job flushed. Returns whether that was done, and where it lies, or why not."""
        until, asked = time.monotonic() + wait, FLUSH.pack(job, secrets.randbits(64))
        with self.changed:
            while asked not in self.flushes:
                if time.monotonic() > until:
                    return False, "its harness doesn't answer, or is older than this client"
                self.link.send(query(QUERY_FLUSH, asked))
                wait_for(self.changed, lambda: asked in self.flushes, min(AGAIN, wait))
            return self.flushes.pop(asked)

    def ask_blocks(self, wanted, wait):
        """Returns the kind and the bytes of an answer to what is wanted, of no bytes where none comes."""
        until = time.monotonic() + wait
        with self.changed:
            self.blocks = {}
            while wanted not in self.blocks:
                if time.monotonic() > until:
                    return BLOCKS, b""
                self.link.send(query(QUERY_BLOCKS, wanted))
                wait_for(self.changed, lambda: wanted in self.blocks, min(AGAIN, wait))
            return self.blocks.pop(wanted)

    def read_blocks(self, job, size, count, wait):
        """Gives a job's blocks from the first to the last: some at once, in their bytes; or one that
        can't be read, as why; or None where there is no answer for so long, which ends them."""
        first, at_once = 0, max(1, AT_ONCE // size)
        while first < count:
            kind, found = self.ask_blocks(struct.pack(">IIII", job, first, min(at_once, count - first), size), wait)
            whole = len(found) // size if kind == BLOCKS else 1
            yield None if not whole else found if kind == BLOCKS else found.decode(errors="replace")
            first += whole or count
