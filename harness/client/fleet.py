"""The client of a fleet: the proved node, its note, and the links to the servers and the mirror."""
import os
import struct
import subprocess
import threading
import time

from links import Link
from mirror import Copies
from note import KeptNote, Refused, drawn_fleet, first_note, has_room, new_generation, numbers_of
from queries import HELLO, QUERY_HELLO, Answers, is_answer, query
from records import BEGIN, ENDED, ENDS_OF, END_AT, END_OF_ALL, FRAME, GOOD, LOOK, MIRROR, NONE, NOTE, NUMBER, OPEN, OUTCOME, REFUSALS, REPORT, REQUESTS, SAVE, SEND, SHOW, STOP, TICK, TRIGGER, VERIFY
from records import Report, addressee, read_record, record
from runs import Runs
from states import states_in
from stopping import await_within, sleep, wait_for
from verdicts import Place, Verdict

# So often what isn't answered is asked for again.
TICKS = 1
# So long a check is waited for behind the last moment in which its server has read, in seconds.
LONGEST_READ = 2
# What a refusal of the client's own, and one of a server, means to who reads it.
REASONS = {1: ": the job file is longer than 16,384 bytes", 73: ": the note has no room for more states, and a new one has to be begun"}
WHY_REFUSED = {60: ": it has served a later run than any of this note: of another fleet, or by a clock that was ahead"}


class Fleet:
    """Carries out what the node says, in its order: a save is on the disk before anything behind it
    leaves this process."""

    def __init__(self, note, commands, run=0, mirror=None, wait=60):
        """Starts the client on its note, or on a first one by which that run was begun. With a mirror
        it begins anew where there is no note."""
        self.kept, self.commands, self.copies = KeptNote(note), commands, Copies()
        self.lock, self.changed = threading.Lock(), threading.Condition()
        self.told, self.answered, self.answers = 0, 0, {}
        self.number, self.outcomes, self.reports, self.end = None, {}, [], None
        self.has_mirror = bool(mirror)
        self.places, self.verdict = [], None # as an attempt was told last
        self.process, self.links, self.servers, self.mirror = None, [], [], None
        before = self.kept.read()
        self.name_fleet(mirror, wait)
        opening, more = self.open(before, run, mirror)
        words = [os.environ.get("NODE", "fiocut_node"), "client", str(len(commands)), *more]
        try:
            self.process = subprocess.Popen(words, stdin=subprocess.PIPE, stdout=subprocess.PIPE, start_new_session=True)
        except OSError as error:
            raise Refused(f"{words[0]}: {error.strerror}") from None
        self.listener = threading.Thread(target=self.run, daemon=True)
        self.listener.start()
        fault = self.ask(NOTE, opening)
        if fault:
            raise Refused(f"{note}: the node refuses it, {fault}")
        self.links = [Link(it, lambda frame, at=at: self.hear(at, frame), lambda at=at: self.hello(at), self.ask_again) for at, it in enumerate(commands)]
        self.servers = [Answers(it) for it in self.links]
        if mirror:
            self.tell(TICK)
        threading.Thread(target=self.tick, daemon=True).start()

    def hello(self, whom):
        return query(QUERY_HELLO, HELLO.pack(self.kept.fleet, whom, len(self.commands), self.kept.before, self.has_mirror))

    def name_fleet(self, mirror, wait):
        """Begins the link to the mirror. Where the note doesn't say which fleet this is, the mirror may
        know it; else it is drawn, and the mirror is told. It is kept with the note from then on."""
        if self.kept.servers not in (0, len(self.commands)):
            raise Refused(f"{self.kept.path}: this is the note of a fleet of {self.kept.servers} servers, and here are {len(self.commands)}")
        self.kept.servers = len(self.commands)
        if mirror:
            self.mirror = Link(mirror, self.hear_mirror, lambda: self.hello(MIRROR), self.ask_again)
        if not self.kept.fleet and mirror:
            if not await_within(wait, self.mirror.welcomed.is_set):
                raise Refused("the mirror doesn't answer, and which fleet it is of isn't known")
            self.kept.fleet = self.mirror.welcome.fleet
        self.kept.fleet = self.kept.fleet or drawn_fleet()
        if mirror:
            self.mirror.greet()

    def open(self, note, run, mirror):
        """Returns the note that the node is opened over, and how. One of no bytes is that of a client with
        a mirror whose fleet takes the place of another one, and hasn't begun yet."""
        if not note and mirror:
            return b"", ["renew", str(new_generation(self.kept.past))]
        if note is None:
            note = first_note(run)
            self.kept.keep(note)
        if (not note or numbers_of(note)[0] > 0) != bool(mirror):
            raise Refused(f"{self.kept.path}: this is the note of a client with{'out' if mirror else ''} a mirror")
        return note, ["mirror"] if mirror else []

    def hear_mirror(self, frame):
        if not is_answer(frame) and self.process:
            self.tell(FRAME, frame)
        self.copies.hear(frame)

    def has_copies(self, seconds, had=frozenset(), grace=2):
        """Waits until all that the mirror keeps has come, so long at most, but for what the note has by an
        earlier life. A life of the client in which some of it was lost has to end: none asks twice."""
        self.copies.had = had
        if self.mirror and not self.copies.await_all(numbers_of(self.kept.read())[0], seconds, grace):
            return False
        self.ask(TICK) # (once that is answered, all that came is in the note)
        return True

    def copies_had(self):
        """The copies that have come by the end of this life, or before it, and are in the note."""
        return (self.copies.came | self.copies.had) & {*states_in(self.kept.read() or b"")}

    def hear(self, server, frame):
        """Hands the node a frame. What a server's harness says is none of its business."""
        if not is_answer(frame):
            self.tell(FRAME, frame)
        elif self.servers:
            self.servers[server].hear(frame)

    def tell(self, kind, body=b"", waits=False):
        """Tells the node a record, and returns which it is."""
        with self.lock:
            self.told += 1
            if waits:
                self.answers[self.told] = None
            try:
                self.process.stdin.write(record(kind, body))
                self.process.stdin.flush()
            except OSError:
                pass # it has ended, which `run` finds
            return self.told

    def ask(self, kind, body=b""):
        """Tells the node a record, waits for the end of the answer, and returns its fault, or 0."""
        turn = self.tell(kind, body, True)
        with self.changed:
            while self.answers[turn] is None and not self.end:
                wait_for(self.changed, lambda: self.answers[turn] is not None or self.end, 1)
            if self.end:
                raise Refused(self.end)
            return self.answers.pop(turn)

    def hears(self):
        """Whether the node is there."""
        return not self.end

    def run(self):
        """Where the note can't be kept, the node ends: nothing behind the save may be carried
        out."""
        end = "fiocut_node: it has ended"
        try:
            while said := read_record(self.process.stdout):
                self.carry_out(*said)
        except OSError as error:
            end = f"{self.kept.path}: {error.strerror}"
        except (struct.error, IndexError, MemoryError):
            end = "fiocut_node: it says what no client says"
        self.process.kill()
        with self.changed:
            self.end = end
            self.changed.notify_all()

    def carry_out(self, kind, body):
        if kind == SAVE:
            self.kept.keep(body)
        elif kind == SEND:
            to = self.mirror if addressee(body) == MIRROR else self.links and self.links[addressee(body)]
            if to: # (the node may say some before there are any: they are lost)
                to.send(body)
        else:
            with self.changed:
                self.note(kind, body)
                self.changed.notify_all()

    def note(self, kind, body):
        if kind == NUMBER:
            self.number = struct.unpack(">Q", body)[0]
        elif kind == OUTCOME:
            number, server, request, outcome = struct.unpack(">QIBB", body)
            self.outcomes[request, number, server] = outcome
        elif kind == REPORT:
            self.reports.append(Report(body))
        elif kind == END_AT:
            self.places.append(Place(body))
        elif kind == END_OF_ALL:
            self.verdict = Verdict(body, self.places)
        elif kind == ENDED:
            self.answered += 1
            if self.answered in self.answers:
                self.answers[self.answered] = body[0]

    def ask_again(self):
        """What was said before a link was there is lost: it is said again."""
        if self.process:
            self.tell(TICK)

    def tick(self):
        while not self.end:
            time.sleep(TICKS)
            self.tell(TICK)

    def number_for(self, kind, body, what):
        """Asks for a run or an attempt, and returns its number."""
        fault = self.ask(kind, body)
        if fault:
            raise Refused(f"{what}: refused {fault}{REASONS.get(fault, '')}")
        return self.number

    def begin(self, text):
        """Begins a run with this text, which is kept beside the note before a server hears of it."""
        Runs(self.kept.path).begin(numbers_of(self.kept.note)[1] + 1, text)
        return self.number_for(BEGIN, text, "begin")

    def verify(self, run, text):
        return self.number_for(VERIFY, struct.pack(">Q", run) + text, f"the check of run {run}")

    def trigger(self, run, cuts):
        return self.ask(TRIGGER, struct.pack(">QB", run, cuts))

    def stop(self, run):
        return self.ask(STOP, struct.pack(">Q", run))

    def stand(self, request, number):
        """Returns how a request stands, by server."""
        for server in range(len(self.commands)):
            self.ask(LOOK, struct.pack(">QIB", number, server, REQUESTS[request]))
        return [self.outcomes.get((REQUESTS[request], number, it), NONE) for it in range(len(self.commands))]

    def settle(self, request, number, seconds):
        """Waits until a request has ended at each server, so long at most, or a check as long as a server
        says that it reads; and returns how it stands."""
        until, asks = time.monotonic() + seconds, 0
        while True:
            now = self.stand(request, number)
            still = [it for it, outcome in zip(self.servers, now) if outcome in (NONE, OPEN)]
            if request == "verify" and any(it.reads_now() for it in still):
                until = max(until, time.monotonic() + LONGEST_READ)
            if not still or time.monotonic() > until:
                return now
            if time.monotonic() > asks:
                for it in self.servers:
                    it.ask_ends()
                asks = time.monotonic() + 1
            sleep(0.02)

    def stands(self, server, outcome, run):
        """Returns in words how a request of a run stands at a server."""
        if outcome == GOOD:
            return "good"
        if outcome not in (NONE, OPEN):
            return f"refused {outcome} {REFUSALS.get(outcome, '')}".strip() + WHY_REFUSED.get(outcome, "")
        if self.links[server].refusal:
            return f"no answer: {self.links[server].refusal}"
        other = self.servers[server].writes_now()
        return f"busy with run {other}" if other not in (0, run) else "no answer"

    def has_room(self):
        """Whether its note has room for another run: with a mirror, once all that this keeps has come."""
        return has_room(self.kept.read(), len(self.commands))

    def take_reports(self):
        """Returns all reports that came in this life."""
        had = -1
        while len(self.reports) > had:
            had = len(self.reports)
            self.ask(SHOW, struct.pack(">Q", had))
        return self.reports

    def ask_verdict(self, run, attempt):
        """Returns how an attempt to verify a run ended, by all that came in this life."""
        self.places, self.verdict = [], None
        fault = self.ask(ENDS_OF, struct.pack(">QQ", run, attempt))
        if fault or not self.verdict:
            raise Refused(f"how the check of run {run} ended isn't told: refused {fault}")
        return self.verdict

    def close(self):
        """Ends this life. What the node had said by then is carried out before its note is given up:
        a save that is still under way would undo those of the next life."""
        for it in [*self.links, *([self.mirror] if self.mirror else [])]:
            it.close()
        self.process.kill()
        self.process.wait()
        self.listener.join()
        self.kept.close()
