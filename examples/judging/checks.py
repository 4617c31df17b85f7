"""Tells what a check has to find in a file, by a verify state or without one.

A check goes over each block that has a completed write. The block is sound where it holds all bytes
of the last of these, or of a write to it that was in flight at the taking; else it is a fault.
"""

from collections import defaultdict

from judging.files import block_of_write
from judging.frames import Report
from judging.settings import blocks_of
from judging.verdict import Unjudged


class Check:
    """A check of a file by a state, or in a full pass where that is None."""

    def __init__(self, files, key, job, state):
        self.files, self.key, self.job, self.state = files, key, job, state
        self.file = key[1:]

    def block_of(self, write):
        """The block of a write, by the order of its job."""
        return blocks_of(self.job.settings)[write]

    def expected(self):
        """The last completed write to each block that has one, and the writes in flight to each. A
        full pass takes all writes for completed."""
        last, in_flight = {}, defaultdict(list)
        for write in range(self.state.issued if self.state else self.job.settings.total):
            if self.state and write not in self.state.counted:
                in_flight[self.block_of(write)].append(write)
            else:
                last[self.block_of(write)] = write
        return last, in_flight

    def faulty(self):
        """The checked blocks, each with whether it is a fault, and the writes in flight."""
        last, in_flight = self.expected()
        blocks = []
        for block in sorted(last):
            writes = [last[block]] + in_flight[block]
            blocks.append((block, not any(self.has(write, block) for write in writes)))
        return blocks, in_flight

    def has(self, write, block):
        """The block holds all bytes of a write."""
        sectors = block_of_write(self.job.settings, self.key, write, block)
        return self.files.holds(self.file, sectors)

    def report(self):
        """The report, which ends at the first fault where that is fatal."""
        if self.file in self.files.unknown:
            raise self.files.unknown[self.file]
        blocks, _ = self.faulty()
        faults = [block for block, is_fault in blocks if is_fault]
        if self.job.fatal and faults:
            looked_at = [block for block, _ in blocks if block <= faults[0]]
            return Report(len(looked_at), 1, "fault", (faults[0],))
        return Report(len(blocks), len(faults), "whole", tuple(faults[:32]))

    def report_or_why_not(self):
        """The report, or why it can't be told."""
        try:
            return self.report()
        except Unjudged as why:
            return why

    def judge_disk(self, verdict, name):
        """By a state, an honest disk has faults only where writes were in flight."""
        if self.state is None or self.file in self.files.dishonest:
            return
        blocks, in_flight = self.faulty()
        faults = [block for block, is_fault in blocks if is_fault]
        verdict.judge("honest", all(in_flight[block] for block in faults),
                      f"{name}: blocks {faults} are faults on an honest disk")
        if self.file not in self.files.torn:
            verdict.judge("whole", not faults,
                          f"{name}: blocks {faults} are faults, and no write is torn")
