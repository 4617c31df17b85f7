"""Bytes that were a ledger and are spoilt: by damage, or signed anew, as another program might spell
them."""
import hashlib
import struct

# Numbers about the limits of each of the twelve of a run: those within them make a ledger as good as
# any other.
LIMITS = (
    (0, 1, (1 << 64) - 1), (7, 8, (1 << 32) - 1, 1 << 32), (15, 16, (1 << 32) - 1, 1 << 32), (2, 3), (1, 2), (0, 1, 255, 256), (511, 512, 1024, 65_536, 66_048),
    (0, 1, 65_536, 65_537), (0, 1, 1_000_000, 1_000_001), (0, (1 << 64) - 1), (0, 1, 64, 65), (0, 1, 256, 257),
)


def numbers_in(ledger):
    return list(struct.unpack(f">{(len(ledger) - 20) // 8}Q", ledger[:-20]))


def signed(numbers):
    body = struct.pack(f">{len(numbers)}Q", *numbers)
    return body + hashlib.sha1(body).digest()


def flipped(rng, ledger):
    data = bytearray(ledger)
    data[rng.randrange(len(data))] ^= 1 << rng.randrange(8)
    return bytes(data)


def cut(rng, ledger):
    return ledger[: rng.randrange(len(ledger))]


def signed_anew(rng, ledger):
    """One number is another."""
    numbers = numbers_in(ledger)
    at = rng.choice((rng.randrange(len(numbers)), rng.randrange(min(16, len(numbers)))))
    numbers[at] = rng.choice((0, 1, numbers[at] + 1, max(numbers[at] - 1, 0), 1 << 63, 65_537))
    return signed(numbers)


def with_limits(rng, ledger):
    """A run's number, or two of them, are at a limit or past it."""
    numbers = numbers_in(ledger)
    for _ in range(rng.randint(1, 2) if numbers[3] else 0):
        column = rng.randrange(12)
        numbers[4 + 12 * rng.randrange(numbers[3]) + column] = rng.choice(LIMITS[column])
    return signed(numbers)


def with_other_size(rng, ledger):
    """The blocks of a run, or of the place, or of all, have another size that a job may have."""
    numbers = numbers_in(ledger)
    rows = list(range(10, 4 + 12 * numbers[3], 12))
    for at in rng.choice(([1], rows, rows[:1], [1] + rows)):
        numbers[at] += 512
    return signed(numbers)


def with_last_write(rng, ledger):
    """A write is the last one of its job, or the one behind that; or its run is the last of the table,
    or the one behind."""
    numbers, writes = numbers_in(ledger), []
    at = 4 + 12 * numbers[3]
    while at < len(numbers):
        writes += range(at + 1, at + 1 + 2 * numbers[at], 2)
        at += 1 + 2 * numbers[at]
    if writes:
        at = rng.choice(writes)
        total = numbers[4 + 12 * numbers[at] + 8]
        place, number = rng.choice(((at + 1, total), (at + 1, total - 1), (at, numbers[3]), (at, numbers[3] - 1)))
        numbers[place] = number
    return signed(numbers)


def longer(rng, ledger):
    return signed(numbers_in(ledger) + [0] * rng.randint(1, 3))


def shorter(rng, ledger):
    numbers = numbers_in(ledger)
    return signed(numbers[: rng.randrange(len(numbers))])


def with_two_rows(rng, ledger):
    """A run stands twice in the table, or one stands there that no write names."""
    numbers = numbers_in(ledger)
    row = numbers[4:16] if numbers[3] else [1, 0, 0, 0, 0, 0, numbers[1], numbers[2], 1, 1, 1, 1]
    return signed(numbers[:3] + [numbers[3] + 1] + row + numbers[4:])


def with_rows_swapped(rng, ledger):
    """The first two runs stand the other way round, and each write names its own all the same."""
    numbers = numbers_in(ledger)
    if numbers[3] < 2:
        return flipped(rng, ledger)
    swapped, at = numbers[:4] + numbers[16:28] + numbers[4:16] + numbers[28:], 4 + 12 * numbers[3]
    while at < len(swapped):
        for place in range(at + 1, at + 1 + 2 * swapped[at], 2):
            swapped[place] = {0: 1, 1: 0}.get(swapped[place], swapped[place])
        at += 1 + 2 * swapped[at]
    return signed(swapped)


WAYS = (flipped, cut, signed_anew, signed_anew, with_limits, with_limits, with_last_write, with_other_size, longer, shorter, with_two_rows, with_rows_swapped)


def spoilt(rng, ledger):
    """Another ledger, or none. Bytes that are one all the same are as good as any."""
    return rng.choice(WAYS)(rng, ledger) if ledger else b"\0" * rng.randint(1, 99)
