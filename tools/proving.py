"""What ../build has Rattle's prover do: which crates it proves at a time, over which others, and by how
many processes each."""
import hashlib
import os
import re
import shutil
import subprocess
import sys
import threading
import time

from provenance import PARTS, TOP, folder_of, sum_of_sources

OUT = f"{TOP}/crates/fiocut/out"
# What was proved, the sources as they were when the build began, and what the prover said.
PROVED, SOURCES, LOG = f"{OUT}/proved", f"{OUT}/sources", f"{OUT}/build.log"
PROGRAMS = ("fiocut", "drive", "fiocut_node", "fiocut_seen", "bench")
# What a process of a check takes at most, in KiB, as measured.
MEMORY = 2_200_000
# There are so many more processes than processors, since they seldom are all busy.
MORE = 2
# No check gains by more processes than these, and none beside others by more than these.
JOBS, SHARE = 4, 3
# Each process of a check loads the statements of the libraries below: a crate gains by several
# beside others where so many times its lines are more than those.
GAINS = 12
# How far a crate stands back for those that most others wait for, as `nice` has it.
NICE = 10
# Those are the ones behind which there is as much as this share of what is behind the first.
URGENT = 3 / 4
# So many lines below a crate take as long to load as one of its own takes to prove, as measured.
LOADED = 90


def said_by(*words):
    """Returns what a command prints."""
    return subprocess.run(words, stdout=subprocess.PIPE, text=True, check=True).stdout.strip()


def files_of(crate):
    """Returns the sources of a crate, as they were when the build began."""
    found = [f"{at}/{name}" for part in PARTS for at, _, names in os.walk(f"{SOURCES}/crates/{crate}/{part}") for name in names]
    return sorted(found)


def lines_in(crate):
    """Returns the lines of a crate's code: as measured, a check takes its time for those, and
    little for lemmas."""
    code = [it for it in files_of(crate) if it.startswith(f"{SOURCES}/crates/{crate}/src/")]
    count = 0
    for file in code:
        with open(file, "rb") as it:
            count += it.read().count(b"\n")
    return count


def sums_of(crates, kit):
    """Returns by crate a sum of the kit, of the crate's files and of those below it."""
    sums = {}
    for crate, used in crates.items():
        sum = hashlib.sha256(repr((kit, crate, used, [sums.get(it) for it in used])).encode())
        for file in files_of(crate):
            with open(file, "rb") as it:
                sum.update(repr((os.path.relpath(file, SOURCES), it.read())).encode())
        sums[crate] = sum.hexdigest()
    return sums


def processes():
    """Returns how many processes can be at work: one a processor and some more, as many as memory
    holds."""
    with open("/proc/meminfo", encoding="utf-8") as it:
        free = int(re.search(r"MemAvailable:\s+(\d+)", it.read())[1])
    return max(1, min(len(os.sched_getaffinity(0)) + MORE, free // MEMORY))


class Build:
    """A build: what is proved, what is being proved, and by what."""

    def __init__(self, crates):
        self.kit = os.path.dirname(said_by("rt", "doc"))
        self.rattle = f"{self.kit}/bin/rattle"
        # (an older kit has no statements: the crates above then load all that was proved below)
        self.statements = ["--statements"] if "--statements" in said_by(self.rattle, "build", "--help") else []
        self.begun, self.told = time.time(), time.time()
        self.own = {crate: [it for it in used if it in crates] for crate, used in crates.items()}
        self.of_kit = {crate: ["std", *[it for it in used if it not in crates]] for crate, used in crates.items()}
        self.kit_name = said_by("rt", "version")
        self.sums = sums_of(crates, self.kit_name)
        self.jobs, self.done, self.running, self.failed = processes(), set(), {}, []
        self.changed = threading.Condition()
        self.log = open(LOG, "w", encoding="utf-8", buffering=1)
        lines, self.behind, self.gains = {it: lines_in(it) for it in crates}, {}, {}
        for crate in reversed([*crates]):
            above = [self.behind[it] for it in crates if crate in self.own[it]]
            loaded = sum(lines[it] for it in self.below(crate))
            self.behind[crate] = lines[crate] + loaded // LOADED + max(above, default=0)
            self.gains[crate] = lines[crate] * GAINS > loaded

    def below(self, crate):
        """Returns the crates of this repository that a crate stands on."""
        return set(self.own[crate]).union(*[self.below(it) for it in self.own[crate]])

    def say(self, text):
        """Says something, and how long the build has taken."""
        self.told = time.time()
        passed = int(self.told - self.begun)
        print(f"build: {text}, after {passed // 60} min {passed % 60} s", file=sys.stderr, flush=True)

    def tell(self):
        """Says how far all crates are, where nothing was said for half a minute."""
        if time.time() - self.told >= 30:
            at_work = ", ".join(f"{it} for {int(time.time() - of['begun'])} s" for it, of in sorted(self.running.items()))
            self.say(f"{len(self.done)} of {len(self.own)} crates are proved; at work: {at_work}")

    def ask(self, crate, words):
        """Runs a command in a crate's folder, logs what it says, and returns its status."""
        words = ["nice", "-n", str(self.running[crate]["nice"]), *words]
        how = {"stdout": subprocess.PIPE, "stderr": subprocess.STDOUT, "stdin": subprocess.DEVNULL, "text": True, "errors": "replace"}
        with subprocess.Popen(words, cwd=f"{SOURCES}/crates/{crate}", **how) as ran:
            for line in ran.stdout:
                self.log.write(f"{crate}: {line}")
                functions = re.match(r"logic=proved functions=(\d+)", line)
                if functions:
                    self.running[crate]["functions"] = f", {functions[1]} functions"
        return ran.returncode

    def prove(self, crate, jobs):
        """Has the prover check a crate, and build what the crates above it read, or the program.
        Returns its status."""
        is_program, made = crate in PROGRAMS, f"{PROVED}/{crate}"
        words = [self.rattle, "build", "--crate-name", crate, f"src/{'main' if is_program else 'lib'}.rt"]
        words += [f"--extern={it}={self.kit}/rlibs/{it}.rlib" for it in self.of_kit[crate]]
        words += [f"--extern={it}={PROVED}/{it}.rlib" for it in self.own[crate]]
        words += [f"-Ldependency={self.kit}/rlibs", f"-Ldependency={PROVED}", f"--links={crate}="]
        words += [f"--antt-project={self.kit}/rattle/logic/antt-project.json", f"--logic-built={self.kit}/logic_built"]
        if not is_program:
            return self.ask(crate, [*words, "--jobs", str(jobs), *self.statements, "-o", f"{made}.rlib"])
        toolchain = ["--toolchain", f"{self.kit}/toolchain"]
        status = self.ask(crate, [*words, "--jobs", str(jobs), *toolchain, "-o", f"{made}.o"])
        words = [f"{self.kit}/bin/rattle-link", "--target", "x86_64-unknown-linux-gnu", *toolchain, "-o", made, f"{made}.o"]
        return status or self.ask(crate, [*words, f"{self.kit}/c/libos_c.a", f"{self.kit}/c/liblibc_c.a"])

    def prove_and_tell(self, crate, jobs):
        """Proves a crate, unless that was done over the same sources, and tells how that went."""
        mark = f"{PROVED}/{crate}.sum"
        try:
            status = 0
            if not is_file_of(mark, self.sums[crate]):
                status = self.prove(crate, jobs)
                if status < 0:
                    self.log.write(f"{crate}: killed, most likely for memory: once more, by one process\n")
                    status = self.prove(crate, 1)
                if not status:
                    write(mark, self.sums[crate])
        except OSError as error:
            self.log.write(f"{crate}: {error}\n")
            status = 1
        with self.changed:
            functions = self.running.pop(crate)["functions"]
            if status:
                self.failed.append(crate)
            else:
                self.done.add(crate)
                self.say(f"{crate} is proved{functions} ({len(self.done)} of {len(self.own)} crates)")
            self.changed.notify()

    def start(self, crate, idle, others):
        """Begins to prove a crate, where so many others can be begun, too, of which each gets a
        process, if there is one. Those that most others wait for get more of them, and come first
        at the processors."""
        is_urgent = all(self.behind[crate] >= URGENT * self.behind[it] for it in self.running)
        is_alone = not (others or self.running)
        most = JOBS if is_alone else max(1 + is_urgent + self.gains[crate], 1 if others else SHARE)
        jobs = max(1, min(most, idle - others))
        self.running[crate] = {"jobs": jobs, "nice": 0 if is_urgent else NICE, "functions": "", "begun": time.time()}
        self.log.write(f"{crate}: begun with {jobs} jobs, after {int(time.time() - self.begun)} s\n")
        threading.Thread(target=self.prove_and_tell, args=(crate, jobs), daemon=True).start()

    def run(self):
        """Proves all crates, those first that most others wait for. Returns whether that went well."""
        left = sorted(self.own, key=lambda it: -self.behind[it])
        with self.changed:
            while (left and not self.failed) or self.running:
                ready = [it for it in left if self.done.issuperset(self.own[it])]
                for place, crate in enumerate([] if self.failed else ready):
                    idle = self.jobs - sum(it["jobs"] for it in self.running.values())
                    if idle <= 0:
                        break
                    left.remove(crate)
                    self.start(crate, idle, len(ready) - place - 1)
                self.changed.wait(10)
                self.tell()
        return not self.failed


def write(path, text):
    """Writes a file at once: it is there whole, or as it was."""
    with open(f"{path}.new", "w", encoding="utf-8") as it:
        it.write(text)
    os.replace(f"{path}.new", path)


def is_file_of(path, text):
    """Returns whether there is a file of this text."""
    if not os.path.isfile(path):
        return False
    with open(path, encoding="utf-8") as it:
        return it.read() == text


def copied(crates, paths):
    """Keeps the sources of these crates as they are now, since they may be edited while they are
    proved, and returns the sum that each list of paths has by then. Each file of bench gets its own
    ending."""
    sums = None
    while sums is None or sums != [sum_of_sources(it) for it in paths]:
        sums = [sum_of_sources(it) for it in paths]
        shutil.rmtree(SOURCES, ignore_errors=True)
        for crate in crates:
            for part in PARTS:
                if os.path.isdir(f"{TOP}/{folder_of(crate)}/{part}"):
                    shutil.copytree(f"{TOP}/{folder_of(crate)}/{part}", f"{SOURCES}/crates/{crate}/{part}")
    for file in files_of("bench"):
        os.rename(file, file.removesuffix(".txt"))
    return sums
