"""The disk of a story, what becomes of its blocks, and which bytes each of them has to hold."""
from ledger_bytes import STAMP, Key, written_bytes


class Disk:
    """Blocks, what each held earlier, and the bytes of which it has to hold one: None where nothing
    is asked of it."""

    def __init__(self, bs, blocks):
        self.bs, self.blocks = bs, [bytes(bs) for _ in range(blocks)]
        self.earlier = [[bytes(bs)] for _ in range(blocks)]
        self.due = [None] * blocks

    def put(self, block, data):
        if data != self.blocks[block]:
            self.earlier[block].append(self.blocks[block])
            self.blocks[block] = data

    # ---- what a run leaves

    def land(self, rng, run, bytes_of, is_honest):
        """What was done has landed, and what was in flight may have; a disk that lies loses some of
        it, and tears blocks."""
        order, job = run.planned.order, run.planned.job
        loses = 0 if is_honest else rng.choice((0, 0, 0.02))
        for seq in run.done:
            if rng.random() >= loses:
                self.put(order[seq], bytes_of(run.key, job, seq, order[seq]))
        for seq in run.flying:
            lands = rng.choice((0, self.bs)) if is_honest else 512 * rng.randint(0, self.bs // 512)
            held = self.blocks[order[seq]]
            self.put(order[seq], bytes_of(run.key, job, seq, order[seq])[:lands] + held[lands:])

    def ask_behind(self, run, bytes_of, is_full):
        """What has to be there behind a run, by what was told of its writes; in a full pass all of them
        count."""
        order, job = run.planned.order, run.planned.job
        done = range(job.total) if is_full else run.done
        last = {}
        for seq in done:
            last[order[seq]] = max(seq, last.get(order[seq], 0))
        for block, seq in last.items():
            self.due[block] = [bytes_of(run.key, job, seq, block)]
        for seq in () if is_full else run.flying:
            block = order[seq]
            if self.due[block] is not None:
                self.due[block] = self.due[block] + [bytes_of(run.key, job, seq, block)]

    def ask_behind_lost(self, order):
        for block in set(order):
            self.due[block] = None

    # ---- a check

    def faults_in(self, blocks):
        """Those of these blocks that hold nothing of what they have to."""
        return [block for block in blocks if self.due[block] is not None and self.blocks[block] not in self.due[block]]

    def ask_behind_check(self, blocks):
        """What was found has to stay; of a fault nothing more is asked."""
        faults = set(self.faults_in(blocks))
        for block in blocks:
            if self.due[block] is not None:
                self.due[block] = None if block in faults else [self.blocks[block]]

    # ---- what becomes of blocks at rest

    def harm(self, rng, run):
        """Some blocks change at rest, or all of a row of them."""
        if rng.random() < 0.2:
            self.haunt(rng, run)
            return
        ways = (self.zero, self.fill, self.flip, self.set_back, self.set_back, self.misplace, self.mix)
        way, count = rng.choice(ways), len(self.blocks)
        row = range(rng.randrange(count), count) if rng.random() < 0.15 else [rng.randrange(count) for _ in range(rng.randint(1, 3))]
        for block in row:
            way(rng, block)

    def haunt(self, rng, run):
        """A block holds what some write puts there: one of the last run, be it issued or not, or one of
        numbers about the limits, which may be past them."""
        key, job, block = run.key, run.planned.job, rng.randrange(len(self.blocks))
        own = [seq for seq, to in enumerate(run.planned.order) if to == block]
        seq, said = rng.choice(own[-2:] + own or [0]), block
        if rng.random() < 0.6:
            key = Key(rng.choice((key.run, key.run, 0, 1, (1 << 64) - 1)), rng.choice((key.server, 7, 8)), rng.choice((key.job, 15, 16)))
            seq = rng.choice((seq, job.total - 1, job.total, 999_999, 1_000_000))
            said = rng.choice((block, len(self.blocks) - 1, len(self.blocks), 65_535, 65_536))
        self.put(block, written_bytes(key, STAMP, 0, self.bs, seq, said))

    def zero(self, rng, block):
        self.put(block, bytes(self.bs))

    def fill(self, rng, block):
        self.put(block, bytes([rng.choice((0, 1, 165, 255))]) * self.bs)

    def flip(self, rng, block):
        data, at = bytearray(self.blocks[block]), rng.choice((rng.randrange(self.bs), rng.randrange(40)))
        data[at] ^= 1 << rng.randrange(8)
        self.put(block, bytes(data))

    def set_back(self, rng, block):
        self.put(block, rng.choice(self.earlier[block]))

    def misplace(self, rng, block):
        self.put(block, rng.choice(self.blocks))

    def mix(self, rng, block):
        """Sectors of this block, of others, of what was there earlier, zeros and noise."""
        sectors = [data[at : at + 512] for data in (rng.choice(self.blocks), rng.choice(self.earlier[block]), self.blocks[block]) for at in range(0, self.bs, 512)]
        sectors += [bytes(512), rng.randbytes(512)]
        self.put(block, b"".join(rng.choice(sectors) for _ in range(self.bs // 512)))
