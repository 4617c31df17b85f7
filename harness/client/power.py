"""Commands that switch the power."""
import subprocess

from note import Refused


def run_command(command, why="it failed"):
    """Has a shell run a command, apart from the signals of a terminal: half a switch is none."""
    if subprocess.run(command, shell=True, stdin=subprocess.DEVNULL, start_new_session=True).returncode:
        raise Refused(f"{command}: {why}")
