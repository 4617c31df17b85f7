"""A program of Python's to which signals come while it holds a lock: `signalled.py N,.. PROGRAM [WORDS]`
sends it SIGINT each time its first thread has just taken the lock of a condition for the Nth time. The
processes whose numbers STOPS has are stopped before the first."""
import os
import runpy
import signal
import sys
import threading

enter = threading.Condition.__enter__
first, entered, due = threading.get_ident(), 0, [int(it) for it in sys.argv[1].split(",")]
stopped = [int(it) for it in os.environ.get("STOPS", "").split(",") if it]


def enter_signalled(condition):
    global entered
    held = enter(condition)
    if threading.get_ident() == first:
        entered += 1
        while entered in due and stopped:
            os.kill(stopped.pop(), signal.SIGSTOP)
        if entered in due:
            os.kill(os.getpid(), signal.SIGINT)
    return held


threading.Condition.__enter__ = enter_signalled
sys.argv = sys.argv[2:]
sys.path.insert(0, os.path.dirname(os.path.realpath(sys.argv[0])))
runpy.run_path(sys.argv[0], run_name="__main__")
