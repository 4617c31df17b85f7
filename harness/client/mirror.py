"""A fleet's mirror: the proved node over a note of its own, behind one link, which is standard input
and output."""
import os
import secrets
import struct
import subprocess
import sys
import threading
import time

from note import MIRROR, KeptNote, Refused, open_own
from queries import COPIES, COPIES_SENT, HEAD, HELLO, QUERY_HELLO, is_answer, query, welcome
from records import COPY, COPY_OK, ENDED, FRAME, FRAME_HEAD, GRANTED, NOTE, SAVE, SEND, enveloped, read_frame, read_record, record
from say import say
from stopping import wait_for

# So often a mirror looks whether another has taken its place.
LOOKS = 0.1


def take_place(path):
    """Takes the place of the mirror over this note, if there is one, and has this process end once
    another takes it: a link that hangs doesn't keep the next one out."""
    path, mine = path + ".place", secrets.token_hex(8)

    def read():
        try:
            with open(path, encoding="ascii") as it:
                return it.read()
        except OSError:
            return ""

    def watch():
        while read() == mine:
            time.sleep(LOOKS)
        os._exit(0) # (a save that it was about to make wasn't answered)

    beside = f"{path}.{mine}.new" # (two may begin at once)
    with open(open_own(beside, os.O_WRONLY | os.O_EXCL), "w", encoding="ascii") as it:
        it.write(mine)
    os.replace(beside, path)
    threading.Thread(target=watch, daemon=True).start()


writing = threading.Lock()


def send_frame(frame):
    """Writes a frame to the link, whole."""
    data = enveloped(frame)
    with writing:
        while data:
            data = data[os.write(sys.stdout.fileno(), data) :]


class Mirror:
    """Carries out what the node says, in its order: a save is on the disk before anything behind it
    leaves this process."""

    def __init__(self, path):
        take_place(path)
        self.kept = KeptNote(path, MIRROR)
        opening = self.kept.read() or b""
        self.has_states = bool(opening)
        words = [os.environ.get("NODE", "fiocut_node"), "mirror"]
        try:
            self.process = subprocess.Popen(words, stdin=subprocess.PIPE, stdout=subprocess.PIPE, start_new_session=True)
        except OSError as error:
            raise Refused(f"{words[0]}: {error.strerror}") from None
        self.tell(NOTE, opening)

    def tell(self, kind, body):
        self.process.stdin.write(record(kind, body))
        self.process.stdin.flush()

    def hear_all(self):
        """Hands the node what comes over the link, up to its end. Where nobody takes what goes out, that is
        one, too: then the node ends, and with it this process."""
        is_welcome = False
        try:
            while frame := read_frame(sys.stdin.buffer):
                if is_answer(frame):
                    is_welcome = frame[3] == QUERY_HELLO and self.greet(frame[HEAD:])
                elif is_welcome:
                    self.tell(FRAME, frame)
        except OSError:
            pass # the link has ended, or the node
        try:
            self.process.stdin.close()
        except OSError:
            pass

    def greet(self, hello):
        """Answers a hello, and returns whether frames are taken behind it: a mirror is of the first fleet
        that it kept a state of, or of the one that takes that one's place. Before it knows which fleet that
        is it keeps nothing: that would be no fleet's."""
        fleet, _, servers, before, _ = HELLO.unpack(hello) if len(hello) == HELLO.size else (0, 0, 0, 0, 0)
        if before and fleet != self.kept.fleet and (self.kept.fleet == before or (self.has_states and not self.kept.fleet)):
            self.begin_anew(fleet)
        self.kept.fleet, self.kept.servers = self.kept.fleet or fleet, self.kept.servers or servers
        why = "this mirror keeps the states of another fleet" if fleet not in (0, self.kept.fleet) else ""
        send_frame(welcome(MIRROR, self.kept.fleet, why))
        return bool(self.kept.fleet) and not why

    def begin_anew(self, fleet):
        """Puts the note aside for a fleet that takes the place of its own, and ends this process: the next
        one, which the client starts, begins over an empty note of the new fleet."""
        place = self.kept.put_aside(fleet)
        say(f"{self.kept.path}: a new fleet takes the place of the one of this mirror: its states are in {place}")
        os._exit(0)

    def run(self):
        """Serves until the link ends. The first end answers the note."""
        threading.Thread(target=self.hear_all, daemon=True).start()
        is_open, sent = False, []
        while said := read_record(self.process.stdout):
            kind, body = said
            if kind == SAVE:
                self.kept.keep(body)
            elif kind == SEND:
                sent.append(body)
                send_frame(body)
            elif kind == ENDED and not is_open and body[0]:
                raise Refused(f"{self.kept.path}: the node refuses it, {body[0]}")
            elif kind == ENDED:
                self.say_copies(sent)
                is_open, sent = True, []

    def say_copies(self, sent):
        """Where a generation was granted, says behind the copies how many there were."""
        for granted in (it for it in sent if it[3] == GRANTED):
            generation = struct.unpack(">Q", granted[FRAME_HEAD : FRAME_HEAD + 8])[0]
            send_frame(query(COPIES, COPIES_SENT.pack(generation, sum(it[3] == COPY for it in sent))))


class Copies:
    """What this life of the client has from its mirror: whether its generation was granted and all
    copies have come, and of which states the mirror has said that it keeps them."""

    def __init__(self):
        self.changed = threading.Condition()
        self.granted, self.sent, self.came, self.kept = set(), {}, set(), set()
        self.had = set() # the copies that came in earlier lives and are in the client's note

    def hear(self, frame):
        kind, body = frame[3], frame[FRAME_HEAD:]
        with self.changed:
            if is_answer(frame):
                if len(body) == COPIES_SENT.size:
                    generation, self.sent[generation] = COPIES_SENT.unpack(body)
            elif kind == GRANTED and len(body) == 8:
                self.granted.add(struct.unpack(">Q", body)[0])
            elif kind == COPY and len(body) >= 20:
                self.came.add(struct.unpack(">QII", body[4:20]))
            elif kind == COPY_OK and len(body) >= 16:
                self.kept.add(struct.unpack(">QII", body[:16]))
            self.changed.notify_all()

    def are_whole(self, generation):
        return generation in self.granted and len(self.came | self.had) >= self.sent.get(generation, 1 << 30)

    def await_all(self, generation, seconds, grace):
        """Waits for the grant, so long at most, and then until all have come, or nothing more has within a
        grace: then some must be lost. Returns whether they have come."""
        with self.changed:
            wait_for(self.changed, lambda: generation in self.granted, seconds)
            had = -1
            while not self.are_whole(generation) and len(self.came) > had:
                had = len(self.came)
                wait_for(self.changed, lambda: self.are_whole(generation) or len(self.came) > had, grace)
            return self.are_whole(generation)

    def await_kept(self, keys, seconds):
        """Waits until the mirror keeps these states, so long at most, and returns how many it does."""
        with self.changed:
            wait_for(self.changed, lambda: keys <= self.kept, seconds)
            return len(keys & self.kept)


def serve(path):
    """Runs a mirror for as long as its link is there."""
    try:
        Mirror(path).run()
    except BrokenPipeError:
        pass # the link has ended, or the node
