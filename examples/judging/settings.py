"""The settings of a job, and its order: which block each of its writes goes to.

A job takes its blocks in turn or at random. At random it takes each block once in a pass, which
needs a map of those that are left, or any block each time, without a map. The random words are
those of xoshiro256++, which SplitMix64 makes ready from the job's seed.
"""

import struct
from functools import lru_cache
from itertools import islice
from typing import NamedTuple

IN_TURN, WITH_A_MAP, WITHOUT_A_MAP = ORDERS = ("in turn", "with a map", "without a map")
STAMP, PATTERN = FILLINGS = ("stamp", "pattern")
WORD = 2 ** 64 - 1


class Settings(NamedTuple):
    """What a job does: `total` writes, each of a block of `bs` bytes; `pattern` is the byte of a
    pattern, and 0 where stamps are written. At most `depth` writes are in flight at once, and all
    of them are among the last `window`."""

    order: str
    verify: str
    pattern: int
    bs: int
    blocks: int
    total: int
    seed: int
    depth: int
    window: int

    def sectors(self):
        """How many sectors a block has."""
        return self.bs // 512

    def differences(self, other):
        """Which settings differ, and in what."""
        rows = zip(self._fields, self, other)
        return ", ".join(f"{name} {mine} in place of {its}" for name, mine, its in rows
                         if mine != its)


    def is_of_job(self, other):
        """The same bytes go to the same blocks, as often: depth and window may differ."""
        return self._replace(depth=0, window=0) == other._replace(depth=0, window=0)


@lru_cache(maxsize=None)
def place_after(settings, writes):
    """The place of the generator behind so many writes: the next four words that it gives."""
    used = 0 if settings.order == IN_TURN else writes
    return struct.pack(">4Q", *islice(random_words(settings.seed), used, used + 4))


@lru_cache(maxsize=None)
def blocks_of(settings):
    """The block of each write of a job."""
    if settings.order == IN_TURN:
        return [write % settings.blocks for write in range(settings.total)]
    words = islice(random_words(settings.seed), settings.total)
    if settings.order == WITHOUT_A_MAP:
        return [word % settings.blocks for word in words]
    return list(in_passes(words, settings.blocks))


def in_passes(words, blocks):
    """For each random word one of the blocks that are left in its pass: the last of those takes
    its place."""
    left = []
    for word in words:
        left = left or list(range(blocks))
        place = word % len(left)
        yield left[place]
        left[place] = left[-1]
        left.pop()


def turned(word, count):
    """The word, turned left."""
    return (word << count | word >> (64 - count)) & WORD


def first_words(seed):
    """Four words by SplitMix64."""
    for _ in range(4):
        seed = (seed + 0x9E3779B97F4A7C15) & WORD
        word = ((seed ^ seed >> 30) * 0xBF58476D1CE4E5B9) & WORD
        word = ((word ^ word >> 27) * 0x94D049BB133111EB) & WORD
        yield word ^ word >> 31


def random_words(seed):
    """The words of xoshiro256++."""
    a, b, c, d = first_words(seed)
    while True:
        yield (turned((a + d) & WORD, 23) + a) & WORD
        shifted = (b << 17) & WORD
        c, d = c ^ a, d ^ b
        b, a = b ^ c, a ^ d
        c, d = c ^ shifted, turned(d, 45)
