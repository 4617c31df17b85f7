"""What a block has to hold: its entry behind a run, a lost run and a check, and what is told of it,
by the definitions of crates/ledger, recheck and diagnosis."""
import struct
from collections import namedtuple

from ledger_bytes import STAMP, Job, Key, RunWrite, bytes_at, stamped_sector, written_bytes

# What a check of a run goes by: the last completed write to each block that has one, and the writes
# in flight to each block, ascending.
Expected = namedtuple("Expected", "key job last flying")


def state_in(data):
    """Of the bytes of a state, which have no fault: the settings of its job, how many writes were
    issued, and those that it counts."""
    job = Job(*data[20:23], *struct.unpack(">IIQQII", data[24:56]))
    issued = struct.unpack(">Q", data[56:64])[0]
    floor = max(issued - job.window, 0)
    if data[:4] == b"FCV1":
        listed = struct.unpack(f">{(len(data) - 100) // 8}Q", data[100:])
        return job, issued, set(range(floor)) | set(listed)
    marks = struct.unpack(">4Q", data[104:136])
    marked = {floor + at for at in range(256) if marks[at // 64] >> at % 64 & 1}
    return job, issued, set(range(floor)) | {seq for seq in marked if seq < issued}


def expected_by(key, job, order, state):
    """What a check goes by, by a state's bytes or, where there are none, in a full pass. `order` has
    the block of each write."""
    issued, counted = (state_in(state)[1:]) if state else (job.total, None)
    last, flying = {}, {}
    for seq in range(issued):
        block = order[seq]
        if counted is None or seq in counted:
            last[block] = seq
        else:
            flying.setdefault(block, []).append(seq)
    return Expected(key, job, last, flying)


def behind_run(expected, block, entry):
    """The entry of a block behind a run."""
    row = (*expected.key, *expected.job)
    flying = [RunWrite(row, seq) for seq in expected.flying.get(block, ())]
    if block in expected.last:
        return [RunWrite(row, expected.last[block])] + flying
    return entry + flying if entry else []


def behind_lost_run(order, entries):
    """The entries behind a run whose state was lost: nothing is known of what it may have written."""
    touched = set(order)
    return [[] if block in touched else entry for block, entry in enumerate(entries)]


def held_of(entry, block, data):
    """Those of the writes that the block is found to hold."""
    return [write for write in entry if bytes_at(write, block) == data]


# ---- what a block holds

Stamp = namedtuple("Stamp", "key seq block sector")


def stamp_in(sector):
    """What a sector's bytes say, or None where they aren't those of a stamp."""
    run, server, job, seq, block, place = struct.unpack(">QIIQQI", sector[:36])
    stamp = Stamp(Key(run, server, job), seq, block, place)
    is_stamped = block < 1 << 32 and sector == stamped_sector(stamp.key, seq, block, place)
    return stamp if is_stamped else None


def is_below(stamp, writes, blocks, places):
    return stamp.seq < writes and stamp.block < blocks and stamp.sector < places


def can_be(key, job, stamp):
    """Some job can have written it, and where it names the one that is checked, that one can."""
    is_key = stamp.key.run >= 1 and stamp.key.server < 8 and stamp.key.job < 16
    if not is_key or not is_below(stamp, 1_000_000, 65_536, 128):
        return False
    return stamp.key != key or is_below(stamp, job.total, job.blocks, job.bs // 512)


def piece_of(key, job, sector):
    """What a sector holds: a word, or a stamp."""
    if not any(sector):
        return "zeros"
    if job.verify != STAMP:
        return "pattern" if sector == bytes([job.pattern]) * 512 else "unknown"
    stamp = stamp_in(sector)
    return stamp if stamp and can_be(key, job, stamp) else "unknown"


def said(stamp):
    """Which write this is, and whose."""
    key = stamp.key
    return f"write {stamp.seq} of block {stamp.block} of job {key.job} of server {key.server} of run {key.run}"


def goes_on(piece, next_piece):
    if isinstance(piece, str) or isinstance(next_piece, str):
        return piece == next_piece
    return next_piece == piece._replace(sector=piece.sector + 1)


def pieces_words(pieces):
    """All pieces of a block, from the first sector of each to its last."""
    text, front = "", 0
    for at, piece in enumerate(pieces):
        if at + 1 == len(pieces) or not goes_on(piece, pieces[at + 1]):
            text += f"; {front}-{at} " + (piece if isinstance(piece, str) else f"{said(piece)} place {piece.sector}")
            front = at + 1
    return text


def whole_write(key, job, pieces, data):
    """The one write that a block holds whole, as a stamp, or None."""
    first = pieces[0]
    if isinstance(first, str) or first.sector != 0:
        return None
    return first if data == written_bytes(first.key, STAMP, 0, job.bs, first.seq, first.block) else None


def held_words(key, job, data):
    """What a block that was at rest is told to hold."""
    if data == data[:1] * job.bs:
        return f"holds byte {data[0]}" if data[0] else "holds zeros"
    pieces = [piece_of(key, job, data[at : at + 512]) for at in range(0, job.bs, 512)]
    write = whole_write(key, job, pieces, data)
    if write:
        return f"holds {said(write)}"
    unknown = pieces.count("unknown")
    return (f"unknown sectors {unknown}" if unknown else "torn") + pieces_words(pieces)
