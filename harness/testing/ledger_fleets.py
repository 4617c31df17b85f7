"""What the tests of a fleet's ledgers share: servers whose client keeps ledgers, and what it prints of them."""
import re
import struct

from serving import Servers, fleet, job_file
from trying import BLOCK, put, read, tell, tell_has, write

AT_REST = re.compile(r"^server (\d+) job (\d+): by its ledger (\d+) checked, (\d+) lost at rest", re.M)
PLACES = [(server, job) for server in range(2) for job in range(2)]
LEDGERS = sorted(f"server-{server}-job-{job}.ledger" for server, job in PLACES)


class Kept(Servers):
    """Two servers of two jobs each, whose client keeps ledgers, and what its runs and checks come to."""

    before_links = "exec"

    def __init__(self, name, mirror=()):
        self.lies, self.mirror = {}, mirror
        super().__init__(name, 2)
        self.all, self.few = job_file(f"{name}-all.fio", blocks=64, writes=128), job_file(f"{name}-few.fio", blocks=64, writes=12)

    def restart(self):
        for server in range(self.count):
            self.start(server, self.lies.get(server))

    def words(self, *more, note=None):
        return [*more, "--note", note or f"{self.name}.client", *self.mirror, *self.links(self.before_links)]

    def run(self, file, **more):
        """A run whose writes are all done, and its cut: its number."""
        status, printed, _ = fleet("write", file, *self.words("--after-writes", "1000000", **more))
        self.cut()
        tell(f"{self.name}: a run of {file}", (status, "the states are kept" in printed), (0, True))
        return int(re.search(r"^run (\d+)", printed, re.M)[1])

    def check(self, file, *more, env=None, **note):
        """A check by the ledgers, behind a restart and before a cut: its status, what it printed and said."""
        self.restart()
        found = fleet("check", file, *self.words("--ledger", "L", *more, **note), env=env or {})
        self.cut()
        return found

    def holders(self, server, job, run):
        """The blocks of a target that hold a write of this run."""
        data = read(self.targets(server)[job])
        return [at for at in range(64) if struct.unpack_from(">Q", data, at * BLOCK)[0] == run]

    def zero(self, server, job, block):
        data = bytearray(read(self.targets(server)[job]))
        put(data, block, bytes(BLOCK))
        write(self.targets(server)[job], bytes(data))


def rests(printed):
    """What a check printed of its ledgers: how many blocks were checked, and lost, by server and job."""
    return {(int(it[0]), int(it[1])): (int(it[2]), int(it[3])) for it in AT_REST.findall(printed)}


def tell_rests(what, found, status, due, lost=0):
    """Counts a test: of a check its status, what its ledgers told, and its last line."""
    tell(what, (found[0], rests(found[1])), (status, due))
    tell_has(f"{what}: the last line", found[1].splitlines()[-1] if found[1] else "", f", {lost} lost at rest")


def all_sound(checked=64):
    return {it: (checked, 0) for it in PLACES}
