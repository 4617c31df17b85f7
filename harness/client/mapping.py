"""What a faulty block holds, as `drive map` tells it: of a job at a server, by the state that the
client's note keeps, and the blocks as the server's target holds them."""
import os
import shutil
import struct
import subprocess
import threading

from note import Refused


def find_drive(option="--map"):
    """Returns the program `drive`, which DRIVE names."""
    name = os.environ.get("DRIVE", "drive")
    if not (found := shutil.which(name)):
        raise Refused(f"{name}: there is no such program; {option} wants `drive`, and DRIVE names it")
    return found


class Drive:
    """A `drive` that reads the blocks of a job, behind some bytes, each behind its length."""

    def __init__(self, command, run, state, *given):
        words = [find_drive(), command, str(run), str(state.job), "--server", str(state.server)]
        self.process = subprocess.Popen(words, stdin=subprocess.PIPE, stdout=subprocess.PIPE, start_new_session=True)
        self.size, self.said = state.block_size, []
        self.reader = threading.Thread(target=lambda: self.said.append(self.process.stdout.read()), daemon=True)
        self.reader.start()
        for data in given:
            self.give(struct.pack(">I", len(data)), data)

    def give(self, *pieces):
        try:
            self.process.stdin.write(b"".join(pieces))
        except OSError:
            pass # it has refused, and says why

    def give_blocks(self, data):
        size = self.size
        self.give(*(piece for at in range(0, len(data), size) for piece in (b"\1", data[at : at + size])))

    def give_unread(self, count=1):
        self.give(bytes(count))

    def give_all(self, answers, state, wait):
        """Gives it what a server's harness reads. Returns whether that answers."""
        for found in answers.read_blocks(state.job, state.block_size, state.blocks, wait):
            if found is None:
                self.process.kill()
                return False
            if isinstance(found, bytes):
                self.give_blocks(found)
            else:
                self.give_unread()
        return True

    def end(self):
        """Ends it, and returns all that it says."""
        try:
            self.process.stdin.close()
        except OSError:
            pass
        self.reader.join()
        self.process.wait()
        return self.said[0]


def map_job(answers, state, text, wait):
    """Maps a job by its state, from what a server's harness reads. Returns the lines, the last of which is
    the report, or why there is none; none where that doesn't answer."""
    it = Drive("map", state.run, state, text, state.data)
    has_all = it.give_all(answers, state, wait)
    said = it.end()
    return said.decode().splitlines() if has_all else []
