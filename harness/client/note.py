"""The file that keeps the note of the client or of a mirror, with whose it is and a checksum, as
harness/server/note.c keeps a server's; and what a client's note says."""
import fcntl
import os
import secrets
import struct
import time
import zlib

from states import states_in

CLIENT, MIRROR = 8, 9
# Whose it is, how many servers there are, the fleet's number, that of the one whose place it takes, and
# the last generation of that one; and then the sum. A file of an earlier kind has the first of these.
MAGIC, WHOSE = b"FCNOTE3\n", struct.Struct(">IIQQQ")
FRONTS = {MAGIC: WHOSE.size, b"FCNOTE2\n": 24, b"FCNOTE1\n": 4}
# So many states a note keeps at most, and so many runs and attempts a generation has numbers for.
MOST_STATES = 1024
GENERATION_NUMBERS = 1 << 32


class Refused(Exception):
    """Why the fleet goes no further."""


def open_own(path, flags):
    """Opens a file of one's own, and never what a link leads to."""
    return os.open(path, flags | os.O_CREAT | os.O_NOFOLLOW | os.O_CLOEXEC, 0o644)


def sync_folder(path):
    folder = os.open(os.path.dirname(os.path.abspath(path)), os.O_RDONLY | os.O_DIRECTORY)
    try:
        os.fsync(folder)
    finally:
        os.close(folder)


def keep_file(path, data):
    """Keeps bytes, whole: beside the file and on the disk first, then under its name, and the name
    on the disk."""
    with open(open_own(path + ".new", os.O_WRONLY | os.O_TRUNC), "wb") as it:
        it.write(data)
        it.flush()
        os.fsync(it.fileno())
    os.replace(path + ".new", path)
    sync_folder(path)


def drawn_number():
    """A number behind the time, in parts of a second, of which there are as many as a generation has
    numbers: so notes with and without a mirror have one scale. What is drawn on two machines within
    some milliseconds is another one by chance."""
    return int(time.time() * GENERATION_NUMBERS) + secrets.randbits(24)


def drawn_fleet():
    """The number of a new fleet."""
    return 1 + secrets.randbits(62)


def first_note(run):
    """A note of no states whose runs and attempts begin behind a number that is drawn: so none of
    another fleet comes again on a target that served it, and a server, which takes no older run than
    its last, takes those of a later client. This run was begun by then, as far as the note says."""
    used = max(run, drawn_number())
    return b"FCC2" + struct.pack(">QQQI", 0, used, used, 0)


def new_generation(past=0):
    """Returns a generation that was never handed in, above those that are past: the time in seconds, once
    such a second has begun. So whoever was stopped before it could keep its note, and begins anew, takes
    another."""
    now = time.time()
    time.sleep(1 - now % 1)
    return max(int(now), past) + 1


class KeptNote:
    """The note of a client or a mirror, in a file that is locked until the program ends. With it is kept
    whose it is: a number that was drawn for the fleet, 0 for none yet, and how many servers that has."""

    def __init__(self, path, whose=CLIENT):
        self.path, self.whose, self.servers, self.fleet, self.before, self.past = path, whose, 0, 0, 0, 0
        self.note = None # as it was read or kept last
        self.lock = open(open_own(path + ".lock", os.O_WRONLY), "w", encoding="ascii")
        until = time.monotonic() + 2
        while True:
            try:
                fcntl.flock(self.lock, fcntl.LOCK_EX | fcntl.LOCK_NB)
                break
            except BlockingIOError:
                if time.monotonic() > until:
                    raise Refused(f"{path}: another node keeps its note there") from None
                time.sleep(0.01)

    def is_there(self):
        return os.path.exists(self.path)

    def read(self):
        """Returns the note, or None where there is no file yet. It is on the disk by then: who kept it may
        have been killed before that, and what is read here others will rest on."""
        try:
            with open(self.path, "rb") as it:
                data = it.read()
                os.fsync(it.fileno())
        except FileNotFoundError:
            return None
        sync_folder(self.path)
        return self.note_in(data)

    def note_in(self, data):
        """Returns the note in the bytes of a file, and takes from it which fleet it is of."""
        length = FRONTS.get(data[:8], len(data))
        front, total, note = data[8 : 8 + length], data[8 + length : 12 + length], data[12 + length :]
        if len(total) < 4:
            raise Refused(f"{self.path}: this is no note of a node")
        if struct.unpack(">I", total)[0] != zlib.crc32(front + note):
            raise Refused(f"{self.path}: its bytes aren't those that were kept")
        whose, *rest = WHOSE.unpack(front.ljust(WHOSE.size, b"\0"))
        if whose != self.whose:
            raise Refused(f"{self.path}: this is another node's note")
        self.servers, self.fleet, self.before, self.past = rest
        self.note = note
        return note

    def keep(self, note):
        front = WHOSE.pack(self.whose, self.servers, self.fleet, self.before, self.past)
        keep_file(self.path, MAGIC + front + struct.pack(">I", zlib.crc32(front + note)) + note)
        self.note = note

    def put_aside(self, fleet, note=b"", past=0):
        """Keeps the note beside its place, and there the first one of a fleet that takes the place of its
        own. Who is killed within it has the old note, or the new one. Returns where the old one is."""
        place = next(it for it in (f"{self.path}.full-{at}" for at in range(1, 1 << 30)) if not os.path.exists(it))
        os.link(self.path, place)
        sync_folder(place)
        self.fleet, self.before, self.past = fleet, self.fleet, past
        self.keep(note)
        return place

    def close(self):
        self.lock.close()


def numbers_of(note):
    """Returns the generation of a client's note, 0 without a mirror, and its last run's number."""
    if note[:4] == b"FCC2":
        return struct.unpack(">QQ", note[4:20])
    return (0, struct.unpack(">Q", note[4:12])[0]) if note else (0, 0)


def last_run(note):
    """Returns the number of the last run that a client's note tells of, 0 for none. A client that
    began anew, and has begun no run since, knows those whose states it has from the mirror."""
    generation, run = numbers_of(note)
    if generation and run == generation * GENERATION_NUMBERS:
        return max((of for of, _, _ in states_in(note)), default=0)
    return run


def has_room(note, servers, jobs=16):
    """Whether a client's note has room for the states of another run."""
    return len(states_in(note)) + servers * jobs <= MOST_STATES
