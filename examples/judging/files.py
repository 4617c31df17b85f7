"""Follows what each file holds, step by step: by the writes that land, and by what rots."""

from collections import defaultdict

from judging.settings import PATTERN
from judging.verdict import Unjudged

ZEROS = ("fill", 0)


class Files:
    """What the files hold; a file is (server, job).

    A sector is ("stamp", run, server, job, write, block, sector of the block), as its 512 bytes
    say, or ("fill", byte), where each byte is this one. So two sectors are equal here exactly where
    their bytes are. A file is dishonest where it rotted, or a write was told done that wasn't in
    it; torn where a write landed in part; and unknown where a write of it can't be told.
    """

    def __init__(self, story):
        self.story = story
        self.running, self.tickets = {}, {}
        self.sectors = defaultdict(dict)
        self.dishonest, self.torn, self.unknown = set(), set(), {}

    def follow(self, at):
        """One more step."""
        step = self.story.steps[at]
        file = tuple(step.words[1:3])
        if step.gives():
            # A write is one of the server's run.
            self.tickets[(*file, step.answer[2])] = (self.running.get(file[0]), step.answer[4])
        elif step.does("land") or step.does("done"):
            self.meet(at, file)
        elif step.does("rot"):
            self.sectors[file][int(step.words[3])] = ("fill", int(step.words[4]))
            self.dishonest.add(file)
        for frame in self.story.sent[at]:
            if frame.kind == "Started" and at in self.story.hears(
                    frame.source, "Start", run=frame.fields["run"]):
                # The server's run is the newest that it has said to be started, by a Start of it.
                run = frame.fields["run"]
                self.running[frame.source] = max(run, self.running.get(frame.source, 0))

    def meet(self, at, file):
        """A write lands in a file, or is told done."""
        step = self.story.steps[at]
        if (*file, step.words[3]) not in self.tickets:
            return
        run, block = self.tickets[(*file, step.words[3])]
        try:
            job = self.story.job_before(at, run, int(file[1]))
            if not job:
                raise Unjudged(f"there is no job {file[1]} of run {run}")
        except Unjudged as why:
            self.unknown[file] = why
            return
        sectors = block_of_write(job.settings, (run, *file), int(step.words[3]), int(block))
        if step.words[0] == "land":
            self.land(file, sectors, step.words[4:])
        elif not self.holds(file, sectors):
            self.dishonest.add(file)

    def land(self, file, sectors, part):
        """The sectors of a write reach a file: `all`, or `first N`."""
        count = len(sectors) if part[0] == "all" else int(part[1])
        self.sectors[file].update(sectors[:count])
        if count < len(sectors):
            self.torn.add(file)

    def holds(self, file, sectors):
        """The file holds these sectors."""
        return all(self.sectors[file].get(place, ZEROS) == content for place, content in sectors)


def block_of_write(settings, key, write, block):
    """The sectors that a write makes of a block, each with its place in the file."""
    if settings.verify == PATTERN:
        contents = [("fill", settings.pattern)] * settings.sectors()
    else:
        contents = [("stamp", *key, write, block, sector) for sector in range(settings.sectors())]
    return list(enumerate(contents, block * settings.sectors()))
