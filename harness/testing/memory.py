"""Programs that get no memory, or little: `tools/refuse-allocations` refuses each allocation of a
run in turn, and looks how many bytes the greatest one of a life asks for."""
import os
import subprocess

from alone import DONE, JOB, RUN, TAKE, notice, told
from trying import HERE, read, tell

TOP = os.path.dirname(os.path.dirname(HERE))
# Lives of nodes that have little to keep: a mirror's first one, and those of a mirror and of a client
# over the note of a state, and of a server over a note. No allocation of theirs asks for more than
# that for their input, which is read so many bytes at once.
LIVES, AT_ONCE = ("0078.mirror", "0079.mirror", "0009.client.1", "0016.server.0"), 262_144


def tell_of(what, text, *words):
    """Counts a test: whether the tool finds nothing wrong with a program that reads this."""
    ran = subprocess.run([f"{TOP}/tools/refuse-allocations", *words], input=text, stdout=subprocess.PIPE, stderr=subprocess.STDOUT)
    tell(f"{what}: {ran.stdout.decode()}", ran.returncode, 0)


def want_of_memory():
    """A run that can't have all of its memory is refused before its first order; and nodes of few
    states are restarted with little memory."""
    run = told(notice(DONE, 0), notice(DONE, 2), notice(TAKE))
    tell_of("a run that is refused memory", run, "drive", "write", str(RUN), str(JOB))
    for life in LIVES:
        text = read(f"{TOP}/examples/nodes/lives/{life}")
        tell_of(life, text, "--most", str(AT_ONCE), "fiocut_node", *life.split(".")[1:])
