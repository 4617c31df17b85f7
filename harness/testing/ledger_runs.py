"""Jobs of one place at random, and runs of them by `drive write` that are cut in their middle."""
import functools
import struct
from collections import namedtuple

from ledger_bytes import Key, written_bytes
from ledger_entries import state_in
from ledger_reading import behind_length, job_and_order, real

# A job of a text, by its number there; the block of each of its writes; and the text.
Planned = namedtuple("Planned", "text number job order")
# A run that was cut: the writes that were told as done, in that order, those that were then in
# flight, and its state.
Run = namedtuple("Run", "key planned done flying state")


def random_text(rng, bs, blocks):
    """A text whose last job is of so many blocks of this size, and the number of that job."""
    number, depth = rng.choice((0, 0, 0, 1, 2)), rng.choice((1, 2, 4, 4, 8, 16, 64))
    total = rng.choice((blocks, rng.randint(1, blocks), rng.randint(1, 3 * blocks)))
    lines = ["[global]", f"bs={bs}", f"size={bs * blocks}", f"io_size={bs * total}", f"iodepth={depth}"]
    lines += rng.choice((["rw=write"], ["rw=randwrite"], ["rw=randwrite", "norandommap=1"]))
    if rng.random() < 0.5:
        lines.append(f"randseed={rng.randint(0, 9)}")
    if rng.random() < 0.5:
        lines.append(f"x_window={rng.randint(depth, min(256, 4 * depth))}")
    if rng.random() < 0.2:
        lines += ["verify=pattern", f"verify_pattern=0x{rng.choice((0, 1, 165, 255)):02x}"]
    return "\n".join(lines + [f"[{name}]" for name in "abc"[: number + 1]] + [""]).encode(), number


@functools.lru_cache(maxsize=4096)
def planned(text, number):
    """The job of a text, and the block of each of its writes."""
    return Planned(text, number, *job_and_order(text, number))


def bytes_of(key, job, seq, block):
    """What a write of a run puts into a block."""
    return written_bytes(key, job.verify, job.pattern, job.bs, seq, block)


class Window:
    """Which writes of a job are in flight, by its rules."""

    def __init__(self, job, order):
        self.job, self.order = job, order
        self.issued, self.flying, self.failed = 0, [], set()
        self.issue()

    def has_room(self):
        """Whether the next write may be issued."""
        if self.failed or self.issued == self.job.total or len(self.flying) >= self.job.depth:
            return False
        block = self.order[self.issued]
        return all(seq + self.job.window > self.issued and self.order[seq] != block for seq in self.flying)

    def issue(self):
        while self.has_room():
            self.flying.append(self.issued)
            self.issued += 1

    def end(self, seq, is_done):
        if is_done:
            self.flying.remove(seq)
        else:
            self.failed.add(seq)
        self.issue()

    def open(self):
        return [seq for seq in self.flying if seq not in self.failed]


def told(rng, window, most):
    """What is told of the writes of a run, each as done or, seldom, as failed, until it is cut."""
    notices, done = b"", []
    while len(done) < most and window.open():
        seq, is_done = rng.choice(window.open()), rng.random() > 0.002
        window.end(seq, is_done)
        notices += struct.pack(">QQ", 1 if is_done else 2, seq)
        done += [seq] if is_done else []
    return notices, done


def state_of(key, plan, window, notices):
    """The state of a run, by `drive write`, whose orders have to be the ones that are thought."""
    data = behind_length(plan.text) + notices + struct.pack(">QQ", 3, 0)
    printed = real("write", str(key.run), str(key.job), data=data)[1]
    orders, state, size = printed[:-136], printed[-136:], 16 + plan.job.bs
    due = b"".join(
        struct.pack(">QQ", seq, plan.order[seq]) + bytes_of(key._replace(server=0), plan.job, seq, plan.order[seq])
        for seq in range(window.issued)
    )
    if orders != due or state_in(state)[:2] != (plan.job, len(orders) // size):
        raise ValueError(f"drive write gave other orders: {printed[:80]!r}")
    return state[:12] + struct.pack(">I", key.server) + state[16:]


def as_layout_1(state, done, window):
    """The same state as the older layout has it, with the last completions in their order."""
    last = done[-2 * window :]
    return b"FCV1" + state[4:96] + struct.pack(f">I{len(last)}Q", len(last), *last)


def run_at_random(rng, plan, run, server):
    """A run that is cut behind some of its writes, or behind all."""
    key, window = Key(run, server, plan.number), Window(plan.job, plan.order)
    most = rng.choice((plan.job.total, rng.randint(0, plan.job.total), rng.randint(0, plan.job.total)))
    notices, done = told(rng, window, most)
    state = state_of(key, plan, window, notices)
    if rng.random() < 0.05:
        state = as_layout_1(state, done, plan.job.window)
    return Run(key, plan, done, sorted(window.flying), state)
