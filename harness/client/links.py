"""Links: commands whose standard input and output are a stream of frames, to a server or a mirror and
from it; between them stands what the harnesses ask and answer."""
import os
import queue
import signal
import subprocess
import threading
import time

from queries import Welcome, is_welcome
from records import enveloped, read_frame
from say import say

# So many frames wait for a link at most: more are lost. So often the other end is asked whether it is
# there, in seconds; one that answers nothing for so long, or, until it first has, so long, is begun
# anew. What ended is begun anew after a pause, which grows to the longest where nothing comes.
WAITING, ASKS, SILENT, FIRST, PAUSE, LONGEST_PAUSE = 256, 1, 5, 20, 0.2, 5


class Stream:
    """One life of a link: its command, and what writes to it. Nobody else does, so that no byte of a
    frame goes to a later one."""

    def __init__(self, command):
        self.process = subprocess.Popen(command, shell=True, stdin=subprocess.PIPE, stdout=subprocess.PIPE, bufsize=1 << 20, start_new_session=True)
        self.waiting, self.begun, self.last_heard, self.is_welcome = queue.Queue(WAITING), time.monotonic(), None, False
        threading.Thread(target=self.write, daemon=True).start()

    def send(self, frame):
        try:
            self.waiting.put_nowait(frame)
        except queue.Full:
            pass # a frame that is lost

    def write(self):
        """Writes what waits, up to the end, which is no frame."""
        to = self.process.stdin.fileno()
        while frame := self.waiting.get():
            left = enveloped(frame)
            try:
                while left:
                    left = left[os.write(to, left) :]
            except OSError:
                break # it has ended: what waits is lost
        try:
            self.process.stdin.close()
        except OSError:
            pass

    def hear_all(self, hear):
        """Hears frames up to the end. Returns whether the end is one: else what came is no frame."""
        with self.process.stdout as stream:
            while frame := read_frame(stream):
                self.last_heard = time.monotonic()
                hear(frame)
        return frame is None

    def is_silent(self):
        heard = self.last_heard
        return time.monotonic() > (heard + SILENT if heard else self.begun + FIRST)

    def kill(self):
        """Ends the command, with all that it started: who hears it and who writes to it find that."""
        try:
            if self.process.returncode is None:
                os.killpg(self.process.pid, signal.SIGKILL)
        except ProcessLookupError:
            pass

    def end(self):
        self.kill()
        self.process.wait()
        self.send(b"")


class Link:
    """The link to one server, or to a mirror. Each of its lives begins with a hello, and carries frames
    once that is welcome. It is begun anew whenever it ends: frames are lost by that, and nothing else."""

    def __init__(self, command, hear, hello, greeted=lambda: None):
        """`hello` returns the query that says who is here, and for whom; `hear` is given all that comes
        but the welcome, and `greeted` is called once a life of the link is welcome."""
        self.command, self.hear, self.hello, self.greeted = command, hear, hello, greeted
        self.is_closed, self.lock = False, threading.Lock()
        self.refusal, self.welcomed = None, threading.Event()
        self.welcome = None # the last one that came
        self.stream = Stream(command)
        for work in (self.run, self.ask_again):
            threading.Thread(target=work, daemon=True).start()

    def send(self, frame):
        stream = self.stream
        if stream.is_welcome: # (else it would be lost there)
            stream.send(frame)

    def greet(self):
        """Says hello at once: what it says is another thing now."""
        self.stream.send(self.hello())

    def is_up(self):
        """Whether its hello is welcome, in the life that goes on."""
        return self.stream.is_welcome

    def take(self, stream, frame):
        if not is_welcome(frame):
            self.hear(frame)
            return
        self.welcome = Welcome(frame)
        if self.welcome.why != self.refusal and self.welcome.why:
            say(f"{self.command}: {self.welcome.why}")
        was_welcome = stream.is_welcome
        self.refusal, stream.is_welcome = self.welcome.why, not self.welcome.why
        self.welcomed.set()
        if stream.is_welcome and not was_welcome:
            self.greeted()

    def run(self):
        pause = PAUSE
        while True:
            stream = self.stream
            if not stream.hear_all(lambda frame: self.take(stream, frame)):
                say(f"{self.command}: what came over this link isn't what was sent, or no frame: it is begun anew")
            stream.is_welcome = False
            stream.end()
            pause = PAUSE if stream.last_heard else min(2 * pause, LONGEST_PAUSE)
            time.sleep(pause)
            with self.lock:
                if self.is_closed:
                    return
                self.stream = Stream(self.command)

    def ask_again(self):
        while not self.is_closed:
            stream = self.stream
            stream.send(self.hello())
            time.sleep(ASKS if stream.is_welcome else ASKS / 5)
            if stream.is_silent():
                stream.kill()

    def close(self):
        with self.lock:
            self.is_closed = True
            self.stream.kill()
