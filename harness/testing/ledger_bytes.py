"""A ledger's bytes and a write's, read and spelled by the definitions of crates/ledger, write_order
and fc_base."""
import functools
import hashlib
import struct
from collections import namedtuple

MAGIC = 0x4643_4C45_4447_5231
MAX_BLOCKS, MAX_WRITES, MAX_BLOCK_SIZE = 65_536, 1_000_000, 65_536
STAMP, PATTERN = range(2)
COUNTED = bytes(range(256)) * 3
NO_LEDGER = {
    "Short": 100, "Damaged": 101, "NoLedger": 102, "TooManyBlocks": 103, "BadBlockSize": 104,
    "BadRun": 105, "Impossible": 106, "OtherSpelling": 107, "OtherPlace": 109,
}

# The settings of a job, in the order of a row of the table; and a write: the twelve numbers of its
# run, key and settings, and its number.
Job = namedtuple("Job", "kind verify pattern bs blocks total seed depth window")
Key = namedtuple("Key", "run server job")
RunWrite = namedtuple("RunWrite", "row seq")


class Refused(Exception):
    """What is read is refused, by a number and a name."""

    def line(self):
        return f"refused {self.args[0]} {self.args[1]}\n".encode()


def no_ledger(name):
    return Refused(NO_LEDGER[name], name)


def key_of(row):
    return Key(*row[:3])


def job_of(row):
    return Job(*row[3:])


def stamped_sector(key, seq, block, sector):
    """A sector of a stamp: 36 bytes that say whose it is, and 476 that count up."""
    counted = COUNTED[seq % 256 : seq % 256 + 476]
    return struct.pack(">QIIQQI", *key, seq, block, sector) + counted


@functools.lru_cache(maxsize=1 << 16)
def written_bytes(key, verify, pattern, bs, seq, block):
    """What a write puts into a block."""
    if verify == PATTERN:
        return bytes([pattern]) * bs
    return b"".join(stamped_sector(key, seq, block, sector) for sector in range(bs // 512))


def bytes_at(write, block):
    """What this write of a run puts into a block."""
    job = job_of(write.row)
    return written_bytes(key_of(write.row), job.verify, job.pattern, job.bs, write.seq, block)


def words(numbers):
    return struct.pack(f">{len(numbers)}Q", *numbers)


def table_of(entries):
    """The runs that the entries name, each once, in the order of their first use."""
    return list(dict.fromkeys(write.row for entry in entries for write in entry))


def spelled(bs, entries):
    """The bytes of a ledger."""
    table = table_of(entries)
    place = {row: at for at, row in enumerate(table)}
    numbers = [MAGIC, bs, len(entries), len(table)] + [number for row in table for number in row]
    for entry in entries:
        numbers.append(len(entry))
        for write in entry:
            numbers += (place[write.row], write.seq)
    body = words(numbers)
    return body + hashlib.sha1(body).digest()


def is_block_size(bs):
    return 512 <= bs <= MAX_BLOCK_SIZE and bs % 512 == 0


def is_run(row):
    """The key has its widths, and the settings are within the limits of a job."""
    key, job = key_of(row), job_of(row)
    return (
        key.server < 1 << 32 and key.job < 1 << 32 and job.kind < 3 and job.verify < 2
        and (job.pattern == 0 if job.verify == STAMP else job.pattern < 256) and is_block_size(job.bs)
        and 1 <= job.blocks <= MAX_BLOCKS and 1 <= job.total <= MAX_WRITES
        and 1 <= job.depth <= 64 and job.depth <= job.window <= 256
    )


class Numbers:
    """Numbers of eight bytes, one behind the other."""

    def __init__(self, body):
        self.body, self.at = body, 0

    def take(self, count=1):
        if self.at + 8 * count > len(self.body):
            raise no_ledger("Short")
        numbers = struct.unpack_from(f">{count}Q", self.body, self.at)
        self.at += 8 * count
        return numbers

    def entry(self, table, bs):
        """An entry: how many writes it has, and of each the place of its run and its number."""
        pairs = self.take(2 * self.take()[0])
        entry = []
        for place, seq in zip(pairs[::2], pairs[1::2]):
            if place >= len(table):
                raise no_ledger("BadRun")
            if seq >= job_of(table[place]).total or job_of(table[place]).bs != bs:
                raise no_ledger("Impossible")
            entry.append(RunWrite(table[place], seq))
        return entry


def read_ledger(data):
    """The block size and the entries that the bytes of a ledger say. It raises Refused where they
    aren't the spelling of a possible one."""
    if len(data) < 20:
        raise no_ledger("Short")
    if hashlib.sha1(data[:-20]).digest() != data[-20:]:
        raise no_ledger("Damaged")
    numbers = Numbers(data[:-20])
    magic, bs, blocks, runs = numbers.take(4)
    if magic != MAGIC:
        raise no_ledger("NoLedger")
    if blocks > MAX_BLOCKS:
        raise no_ledger("TooManyBlocks")
    if not is_block_size(bs):
        raise no_ledger("BadBlockSize")
    table = [numbers.take(12) for _ in range(runs)]
    if not all(map(is_run, table)):
        raise no_ledger("BadRun")
    entries = [numbers.entry(table, bs) for _ in range(blocks)]
    if spelled(bs, entries) != data:
        raise no_ledger("OtherSpelling")
    return bs, entries
