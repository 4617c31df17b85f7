"""Nights of cuts: who stops them and how, what shows a cut, what a night goes on behind, and what its
last line says."""
import fcntl
import json
import os
import pty
import re
import shlex
import signal
import subprocess
import termios

from crc32c import crc32c
from trying import AGENT, BLOCK, HANG, LIAR, TARGET, WITNESS, await_file, await_that, check, job, read, report, run, run_of, skip, state_in, tell, tell_has, write
from witness import ALL_OF_TWO, KILL, KILL_TOLD, PASS_ON, counted, cycles_in, endless, kill_agent, link, until_told, witness

CUT = ("--off", KILL_TOLD, "--on", "true", "--every", "0.1..0.2", "--seed", "7")


def at_terminal(words):
    """A program at a terminal of its own, in whose foreground it is with all that it starts. Returns it,
    and the terminal's other end."""
    ours, theirs = pty.openpty()

    def take():
        for it in (signal.SIGINT, signal.SIGTERM, signal.SIGHUP): # (which who runs the tests may ignore)
            signal.signal(it, signal.SIG_DFL)
        os.setsid()
        fcntl.ioctl(theirs, termios.TIOCSCTTY, 0)

    ran = subprocess.Popen(words, preexec_fn=take, stdin=theirs, stdout=theirs, stderr=theirs)
    os.close(theirs)
    return ran, ours


def stopped_at_terminal():
    """Ctrl-C, which goes to all that runs at a terminal, and a terminal that is closed, take the
    state."""
    endless()
    for what, words, written in (
        ("drive-target", [TARGET, "write", "endless.fio", "st", "ss"], "st"),
        ("drive-witness", [WITNESS, "write", "endless.fio", "ss", *link("sw")], "sw"),
        ("drive-witness with two drives", [WITNESS, "write", "endless.fio", "ss", "--local", *link("sl")], "sl"),
    ):
        for how in ("Ctrl-C", "a closed terminal"):
            if os.path.exists(written):
                os.remove(written)
            ran, ours = at_terminal(words)
            await_that(lambda: os.path.exists(written) and blocks_in(written) > 64, "more writes than are in flight at once")
            if how == "Ctrl-C":
                os.write(ours, b"\x03")
            else:
                os.close(ours)
            status = ran.wait(HANG)
            if how == "Ctrl-C":
                os.close(ours)
            issued, done = counted(state_in("ss")) if os.path.exists("ss") else (0, ())
            tell(f"{what}, {how}: the status, and a state", (status, 0 < len(done) <= issued), (0, True))
            tell(f"{what}, {how}: no false fault", run("check", "endless.fio", written, "ss")[0] if os.path.exists("ss") else None, 0)
            if os.path.exists("ss"):
                os.remove("ss")


def blocks_in(target):
    """How many blocks of a target hold something."""
    data = read(target)
    return sum(any(data[at : at + 16]) for at in range(0, len(data), BLOCK))


def last_lines(printed):
    """What a series says behind its cycles."""
    return [it for it in printed.splitlines() if not it.startswith("cycle ")]


def last_line(printed):
    """What a series says last; nothing where it was killed before."""
    return "".join(last_lines(printed)[-1:])


def rows_of(folder):
    """The lines of a series, of what is none nothing."""
    def row(line):
        try:
            return json.loads(line)
        except ValueError:
            return {}

    lines = f"{folder}/cycles.jsonl"
    return [row(it) for it in read(lines).decode().splitlines()] if os.path.exists(lines) else []


def no_cuts():
    """A night in which nothing shows a cut has no verdict: a relay on the wrong socket, a link that ends
    by itself, a job that is whole before."""
    endless()
    status, printed, said = witness("cycle", "endless.fio", "wrong", *link("nw"), "--off", "true", "--on", "true", "--every", "0.1..0.1", "--cycles", "2", "--trust-off", "--quiet", "60000")
    tell("a relay on the wrong socket", (status, "the power is still there" in said, cycles_in(printed)), (2, True, []))
    status, printed, _ = witness("cycle", "long.fio", "process", *link("np"), *CUT, "--cycles", "2")
    tell("a process that is killed, on a machine that goes on", (status, [it["cut"] for it in rows_of("process")]), (3, ["none", "none"]))
    tell("each says so", [", no cut, " in it for it in cycles_in(printed)], [True, True])
    tell_has("and the last line", last_lines(printed)[0], "no verdict: ")
    status, printed, _ = witness("cycle", "long.fio", "trusted", *link("np"), *CUT, "--cycles", "2", "--trust-off")
    tell("by the word of --off", (status, [it["cut"] for it in rows_of("trusted")], len(last_lines(printed))), (0, ["word", "word"], 2))
    tell("each line says whose word it is", [", cut by the word of --off, " in it for it in cycles_in(printed)], [True, True])
    rows = rows_of("trusted")
    due = f"sound: {sum(it['checked'] for it in rows)} blocks checked, 0 faults, 0 lost at rest; 2 cuts by the word of --off, {sum(it['in_flight'] > 0 for it in rows)} with writes in flight ({sum(it['in_flight'] for it in rows)} in all), 0 cycles without a cut"
    tell("the last line", last_lines(printed)[0], due)
    words = ("cycle", "long.fio", "mixed", *link("nm"), "--no-ledger")
    tell("a cycle without a cut, which is checked", witness(*words, *CUT, "--every", "1..1.2", "--cycles", "1")[0], 3)
    env = {"LD_PRELOAD": LIAR, "LIE": "stalled:1", "LIE_TARGET": "/nm"}
    status, _, _ = witness(*words, *CUT, "--off", KILL, "--cycles", "2", "--trust-off", "--resume", env=env)
    tell("and a cut behind which nothing is", (status, [(it["cut"], it["checked"] > 0) for it in rows_of("mixed")]), (3, [("none", True), ("word", False)]))
    ends = link("ne", behind=f"| {PASS_ON} 20000")
    status, printed, said = witness("cycle", "endless.fio", "ends", *ends, *CUT[:4], "--every", "60..60", "--cycles", "1", "--trust-off", "--wait", "10")
    tell("a link that ends by itself, and isn't there for a check", (status, "by itself" in said, cycles_in(printed)), (2, True, []))
    once = f"[ -e once ] && exec {shlex.quote(AGENT)} na; touch once; {link('na', behind=f'| {PASS_ON} 20000')[1]}"
    status, printed, said = witness("cycle", "endless.fio", "again", "--link", once, *CUT[:4], "--every", "60..60", "--cycles", "1", "--trust-off")
    tell("a link that ends by itself, and comes back", (status, "by itself" in said, [it["cut"] for it in rows_of("again")]), (3, True, ["none"]))


def started_anew():
    """A machine that is started anew shows its cut, whatever --off says: its kernel draws a number as it
    starts."""
    apart = ["unshare", "-m", "sh", "-c", "mount --bind boot /proc/sys/kernel/random/boot_id"]
    write("boot", "a\n")
    if subprocess.run(apart, stdout=subprocess.DEVNULL, stderr=subprocess.DEVNULL).returncode:
        return skip("boot id", "a machine that is started anew: nothing is mounted over its number here")
    own = link("sa")[1].replace("exec ", "exec unshare -m sh -c 'mount --bind boot /proc/sys/kernel/random/boot_id; exec \"$@\"' sh ")
    off = ("--off", KILL_TOLD, "--on", "cat /proc/sys/kernel/random/uuid >boot", "--every", "0.1..0.2")
    status, printed, _ = witness("cycle", "long.fio", "anew", "--link", own, *off, "--cycles", "2")
    tell("two cuts that are shown", (status, [it["cut"] for it in rows_of("anew")]), (0, ["start", "start"]))
    tell_has("the last line", last_lines(printed)[0], "; 2 cuts, ")
    tell("how few such cuts may lose a write", last_lines(printed)[1:], ["0 of 2 cuts with writes in flight: with 95 % fewer than 3 in 2 such cuts lose a write"])


def fallen_drives():
    """The drive alone loses its power: its writes fail once --off has begun, which is the cut, and no
    failed write. Before that it is one."""
    endless()
    env = {"LD_PRELOAD": LIAR, "LIE": "fallen:1", "LIE_TARGET": "/fd", "LIE_UNTIL": os.path.abspath("fell")}
    off = ("--off", f"{until_told()}; touch fell", "--on", "rm -f fell", "--every", "0.2..0.3", "--drive-only")
    status, printed, said = witness("cycle", "endless.fio", "fallen", *link("fd"), *off, "--cycles", "2", env=env)
    tell("a drive that falls", (status, [(it["cut"], it["failed"], it["faults"]) for it in rows_of("fallen")]), (0, [("fall", 0, 0)] * 2))
    log = os.path.abspath("slow.log")
    ready = f": >{log}; (until grep -q ^read {log}; do sleep 0.02; done; sleep 0.5; rm -f slow-on) >/dev/null 2>&1 &"
    slowly = ("--off", f"{until_told()}; touch slow-on", "--on", ready, *off[4:])
    late = {**env, "LIE_TARGET": "/sl", "LIE_UNTIL": os.path.abspath("slow-on"), "LIE_READS_FALL": "1", "LIE_READS": "1", "LIE_LOG": log}
    status, printed, said = witness("cycle", "endless.fio", "slowly", *link("sl"), *slowly, "--cycles", "1", env=late)
    tell("a drive that answers no read until some time behind --on", (status, [(it["cut"], it["faults"]) for it in rows_of("slowly")], "may not be ready yet" in said), (0, [("fall", 0)], True))
    hangs = {**env, "LIE_TARGET": "/hd", "LIE_FALLS_SLOWLY": "1"}
    status, printed, said = witness("cycle", "endless.fio", "hangs", *link("hd"), *off, "--cycles", "1", env=hangs)
    tell("a drive whose writes fail seconds behind --off", (status, [(it["cut"], it["failed"], it["faults"]) for it in rows_of("hangs")]), (0, [("fall", 0, 0)]))
    write("fell", "")
    status, printed, said = witness("cycle", "endless.fio", "failed", *link("fd"), *off[:4], "--every", "60..60", "--drive-only", "--cycles", "1", env=env)
    tell("a write that fails before that", (status, "failed at the agent" in said), (2, True))


def kept_elsewhere():
    """What `--keep` is given has all that a check wants: where the blocks lie, too."""
    words = ("--offset", "8192", "--stride", "12288")
    tell("a run", run("write", "two.fio", "ke", "ks", *words, "--keep", "cat >elsewhere")[0], 0)
    tell("it is the same file", read("elsewhere") == read("ks"), True)
    check("a check by it", "two.fio", "ke", "elsewhere", [])
    write("bare", state_in("ks"))
    check("by the bare state, with the options", "two.fio", "ke", "bare", [], *words)


def other_drives():
    """A state is of its drive, and a series, too: another one is refused, unless that is asked for; and a
    state whose bytes aren't those that were kept is none."""
    for name in ("od1", "od2"):
        tell(f"a run to {name}", run("write", "two.fio", name, f"{name}.state")[0], 0)
    status, printed, said = run("check", "two.fio", "od2", "od1.state")
    tell("another drive", (status, printed, "--other-drive takes it" in said), (2, "", True))
    os.mkdir("apart") # (where no later run's state lies beside it)
    tell("which is asked for", run("check", "two.fio", "od2", written("apart/od1.state", read("od1.state")), "--other-drive")[0], 1)
    status, printed, said = witness("check", "two.fio", "od1.state", *link("od2"))
    tell("another drive at an agent", (status, printed, "it is another drive" in said), (2, "", True))
    bytes_, refused = read("od1.state"), 0
    for at in range(len(bytes_)):
        write("flipped", bytes_[:at] + bytes([bytes_[at] ^ 1]) + bytes_[at + 1 :])
        status, printed, _ = run("check", "two.fio", "od1", "flipped") if at % 16 == 3 or at < 40 else (2, "", "")
        refused += (status, printed) in ((2, ""), (2, "refused 31 BadMagic\n"))
    tell("a state with a flipped bit is refused", refused, len(bytes_))
    status, _, _ = witness("cycle", "long.fio", "moved", *link("om1"), *CUT, "--cycles", "1", "--trust-off")
    tell("a series", status, 0)
    status, printed, said = witness("cycle", "long.fio", "moved", *link("om2"), *CUT, "--cycles", "2", "--trust-off", "--resume", "--wait", "10")
    tell("that is resumed on another drive", (status, cycles_in(printed), "No such file" in said), (2, [], True))
    write("om3", bytes(4096 * BLOCK))
    status, printed, said = witness("cycle", "long.fio", "moved", *link("om3"), *CUT, "--cycles", "2", "--trust-off", "--resume")
    tell("or on another file", (status, cycles_in(printed), "it is another drive" in said), (2, [], True))


def written_over():
    """A target that a later run has written is no fault of the drive: the later state, which lies beside
    this one, is named. An earlier run's writes are faults, and whose they are is said."""
    for name, words in (("monday", ("--after", "120")), ("tuesday", ())):
        tell(f"the run of {name}", run("write", "two.fio", "wo", f"{name}.state", *words)[0], 0)
        write(f"{name}.bytes", read("wo"))
    later = re.sub(rb"kept [^\n]*", b"kept 2999-01-01T00:00:00Z", read("tuesday.state"))
    kept_at("tuesday.state", moment_of("monday.state"))
    status, printed, _ = run("check", "two.fio", "wo", "monday.state", whole=True)
    tell("the later run within a second", (status, f"all of these hold run {run_of('tuesday.state')}" in printed), (1, True))
    tell("a run that is told as kept later has another sum", run("check", "two.fio", "wo", written("later.state", later))[0], 2)
    kept_at("tuesday.state", b"2999-01-01T00:00:00Z")
    status, printed, _ = run("check", "two.fio", "wo", "monday.state", whole=True)
    due = f"no verdict: a later run has written over 64 of 64 blocks: run {run_of('tuesday.state')}, whose state is ./tuesday.state"
    tell("Monday's state on Tuesday, with writes in flight", (status, printed.splitlines()[-1], " or " in printed), (3, due, True))
    write("wo", read("monday.bytes"))
    status, printed, _ = run("check", "two.fio", "wo", "tuesday.state", whole=True)
    tell("Tuesday's state on Monday", (status, f"all of these hold run {run_of('monday.state')}" in printed), (1, True))


def written(name, data):
    write(name, data)
    return name


def moment_of(name):
    """When a state was kept."""
    return re.search(rb"kept ([^\n]*)", read(name))[1]


def kept_at(name, moment):
    """Writes a state as if it had been kept at that moment, with its sum."""
    front, _, rest = read(name).partition(b"\nrun ")
    rest = b"run " + re.sub(rb"kept [^\n]*", b"kept " + moment, rest, count=1)
    write(name, front[:-8] + b"%08x\n" % crc32c(rest) + rest)


def places_of_states():
    """No state is kept in the place of a device, the target, the job file, or what is no state."""
    write("letter", b"Dear all,\n")
    tell("a run", run("write", "two.fio", "ps", "ok")[0], 0)
    os.mkdir("folder")
    before = read("two.fio")
    for place, why in (("ps", "it is the target"), ("two.fio", "it is the job file"), ("letter", "it holds what is no state"), ("folder", "it is no file"), ("/dev/null", "it is no file")):
        status, _, said = run("write", "two.fio", "ps", place)
        tell(f"a state at {place}", (status, why in said), (2, True))
    status, _, said = witness("write", "two.fio", "two.fio", *link("pw"))
    tell("by a witness", (status, "it is the job file" in said, os.path.exists("pw")), (2, True, False))
    tell("all is as it was", (read("two.fio"), read("letter"), os.path.exists("ps.old"), os.path.exists("/dev/null.old")), (before, b"Dear all,\n", False, False))


def nights_that_go_on():
    """What the drive didn't do ends no night: a link that breaks or falls silent within a check, a target
    that comes late, bytes that its own runs have written."""
    tell("a run", witness("write", "two.fio", "gs", *link("gt"))[0], 0)
    for what, behind in (("breaks", f"| {PASS_ON} 100000"), ("falls silent", f"| {{ {PASS_ON} 100000; exec sleep {9 * HANG}; }}")):
        once = f"[ -e once ] && exec {shlex.quote(AGENT)} gt; touch once; "
        own = link("gt", behind=behind)[1]
        status, printed, said = witness("check", "two.fio", "gs", "--link", once + own, "--quiet", "3000", "--wait", str(HANG))
        tell(f"a link that {what} once within a check", (status, printed, "the check begins anew" in said), (0, report([]), True))
        os.remove("once")
    off = f"{KILL_TOLD}; mv gl gone; (sleep 2; mv gone gl) >/dev/null 2>&1 &"
    status, printed, _ = witness("cycle", "long.fio", "late", *link("gl"), "--off", off, *CUT[2:], "--cycles", "2", "--trust-off")
    tell("a target that comes back late", (status, len(cycles_in(printed))), (0, 2))
    status, printed, said = witness("cycle", "long.fio", "gone", *link("gg"), "--off", f"{KILL_TOLD}; rm gg", *CUT[2:], "--cycles", "2", "--trust-off", "--wait", "10")
    rows = rows_of("gone")
    tell("one that doesn't come back", (status, len(rows), rows[0]["faults"] == rows[0]["checked"] > 0, [*rows[0]["kinds"]]), (1, 1, True, ["unread"]))
    harm = f"{until_told(calls=ALL_OF_TWO)}; {KILL}; printf abc | dd of=gb bs=1 seek=100 conv=notrunc 2>/dev/null"
    status, printed, _ = witness("cycle", "two.fio", "bytes", *link("gb", "--by", "threads"), "--off", harm, *CUT[2:], "--cycles", "2", "--trust-off", "--keep-going")
    tell("bytes that the cut has left in its first block", (status, len(cycles_in(printed))), (1, 2))
    job("pattern.fio", blocks=64, writes=4096, more="verify=pattern\nverify_pattern=0x5a\n")
    status, printed, said = witness("cycle", "pattern.fio", "patterns", *link("gp"), *CUT, "--cycles", "2", "--trust-off")
    tell("a job of a pattern", (status, len(cycles_in(printed))), (0, 2))


def kept_nights():
    """A series that is resumed begins with the power; a line that was cut short is taken away; a cycle
    that is checked later knows what was ordered; and room for its files is there before the cut."""
    status, _, _ = witness("cycle", "long.fio", "kn", *link("kt"), *CUT, "--cycles", "2", "--trust-off", "--no-ledger")
    tell("two cycles", status, 0)
    rows = rows_of("kn")
    write("kn/cycles.jsonl", b"".join(read("kn/cycles.jsonl").splitlines(True)[:1]) + b'{"cycle": 2, "ru')
    status, printed, _ = witness("cycle", "long.fio", "kn", *link("kt"), "--off", "false", "--on", "touch on-first", *CUT[4:], "--cycles", "2", "--trust-off", "--resume", "--no-ledger")
    tell("resumed, with the power first", (status, os.path.exists("on-first"), len(cycles_in(printed))), (0, True, 1))
    tell("its lines are whole again", [it.get("cycle") for it in rows_of("kn")], [1, 2])
    tell("what was ordered and told is known", [rows_of("kn")[1].get(it) for it in ("run", "ordered", "told", "in_flight")], [rows[1][it] for it in ("run", "ordered", "told", "in_flight")])
    powered = ("--link", f"[ -e power ] || exit; {link('kp')[1]}")
    off = ("--off", f"{until_told()}; rm power; {KILL}", "--on", "touch power", *CUT[4:], "--trust-off")
    write("power", "")
    tell("a cycle on a machine that has power", witness("cycle", "long.fio", "kp-series", *powered, *off, "--cycles", "1")[0], 0)
    os.remove("power")
    status, printed, _ = witness("cycle", "long.fio", "kp-series", *powered, *off, "--cycles", "2", "--resume")
    tell("a series that was stopped without power", (status, len(cycles_in(printed))), (0, 1))
    full = os.path.abspath("full")
    os.mkdir(full)
    if os.geteuid() != 0 or subprocess.run(["mount", "-t", "tmpfs", "-o", "size=256k", "none", full], stderr=subprocess.DEVNULL).returncode:
        return skip("mounts", "a folder without room: this machine mounts nothing")
    try:
        status, _, said = witness("cycle", "long.fio", "full/kn", *link("kf"), "--off", "touch was-cut", "--on", "true", *CUT[4:], "--cycles", "1", "--trust-off")
        tell("a folder without room: no cut", (status, "No space left" in said, os.path.exists("was-cut")), (2, True, False))
    finally:
        subprocess.run(["umount", full])
