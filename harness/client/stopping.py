"""SIGINT and SIGTERM: the first pulls the trigger, the second ends the program, and so does one that
comes where there is no trigger to pull. A handler of Python's is called between any two steps of the
first thread, whichever locks this holds: so it only counts, and who waits looks what has come."""
import os
import signal
import time

# So often who waits looks, in seconds; and behind so many signals to which nobody has looked, the
# program ends wherever it is.
LOOKS, AT_ONCE = 0.05, 3


class Stopped(BaseException):
    """A signal ends the program."""


class Stops:
    """Counts the signals. While `takes_first` is set, the first one is only counted."""

    def __init__(self):
        self.count, self.looked, self.takes_first = 0, 0, False

    def catch(self):
        for it in (signal.SIGINT, signal.SIGTERM):
            signal.signal(it, self.take)

    def take(self, *_):
        self.count += 1
        if self.count >= self.looked + AT_ONCE:
            os.write(2, b"fleet: ended at once by a third signal\n")
            os._exit(2)

    def count_first(self):
        """From now on the first signal is only counted, unless one has come."""
        self.look()
        self.takes_first = True

    def look(self):
        """Ends the program where a signal has come that isn't only counted, and that ended nothing yet."""
        count = self.count # (once: another may come between two looks at it)
        came, self.looked = count > max(self.looked, self.takes_first), count
        if came:
            raise Stopped


STOPS = Stops()


def sleep(seconds):
    """Sleeps so long, unless a signal ends the program."""
    until = time.monotonic() + seconds
    STOPS.look()
    while (left := until - time.monotonic()) > 0:
        time.sleep(min(left, LOOKS))
        STOPS.look()


def await_within(seconds, is_so):
    """Waits until something is so, so long at most, and returns whether it is."""
    until = time.monotonic() + seconds
    while not is_so() and time.monotonic() < until:
        sleep(0.01)
    return is_so()


def wait_for(changed, is_so, seconds):
    """Waits, with a condition held, until something is so, so long at most; and returns whether it is."""
    until = time.monotonic() + seconds
    STOPS.look()
    while not is_so() and (left := until - time.monotonic()) > 0:
        changed.wait(min(left, LOOKS))
        STOPS.look()
    return is_so()
