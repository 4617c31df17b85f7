"""The numbers of runs, and what is refused: targets, options, job files and states."""
import os
import shutil
import subprocess

from trying import HERE, LIAR, OUT, QUIET, TARGET, await_file, check, job, read, report, run, run_of, state_in, tell, tell_has, whole_run, write


def run_numbers():
    """Two runs with two names, and a run that left no state."""
    tell("a first run", run("write", "two.fio", "named", "mon")[0], 0)
    first = run_of("mon")
    env = {"LD_PRELOAD": LIAR, "LIE": "lost:1", "LIE_TARGET": "/named"}
    tell("a run that is lost", run("write", "two.fio", "named", "tue", env=env)[0], 0)
    tell("two runs have two numbers", first != run_of("tue"), True)
    check("the lost run", "two.fio", "named", "tue", list(range(64)))
    tell("numbers of many bits", all(it > 2**32 for it in (first, run_of("tue"))), True)
    endless = {**os.environ, "LD_PRELOAD": LIAR, "LIE": "stalled:1", "LIE_TARGET": "/named2"}
    ran = subprocess.Popen([TARGET, "write", "long.fio", "named2", "mon"], env=endless, **QUIET)
    await_file("mon.old")
    ran.kill()
    ran.wait()
    status, printed, said = run("check", "two.fio", "named2", "mon")
    tell("killed before its state: the old one isn't there", (status, printed), (2, ""))
    tell_has("what is said", said, "mon: No such file")


def refusals():
    """What is refused, and that nothing was changed then."""
    def refused(what, words, part, **more):
        status, printed, said = run(*words, **more)
        tell(f"{what}: the status", (status, printed), (2, ""))
        tell_has(f"{what}: what is said", said, part)

    whole_run()
    full = "two.fio"
    refused("a target below /dev that isn't there", ["write", full, "/dev/sdzz", "rs"], "no file is made below /dev")
    tell("and none was made", os.path.exists("/dev/sdzz"), False)
    refused("a folder", ["write", full, ".", "rs"], "neither a file nor a block device")
    write("letter", b"Dear all,\n" * 40000)
    refused("a file with other bytes", ["write", full, "letter", "rs"], "--yes writes over them")
    tell("and it is as it was", read("letter"), b"Dear all,\n" * 40000)
    write("at the end", bytes(3 << 20) + b"EFI PART" + bytes(504))
    refused("other bytes at the end", ["write", full, "at the end", "rs"], "it holds other bytes, at 3145728")
    tell("with --yes", run("write", full, "letter", "rs", "--yes")[0], 0)
    write("there", "")
    refused("a trigger that is there", ["write", full, "t", "rs2", "--trigger", "there"], "remove it first")
    refused("a full pass without a run", ["check", full, "t", "-"], "--run")
    for words, part in (
        (["--after", "1k"], "wants a number"), (["--job", "-1"], "wants a number"), (["--after"], "nothing stands behind it"), (["--afer", "1"], "no such option"),
        (["--run", "1"], "it is for another command"), (["--job", "1"], "no such job"), (["--cpu", "-1"], "wants a number"),
        (["--cpu", "1000"], "no such processor"), (["--cpu", "99999"], "no such processor"),
        (["--queue", "0"], "--queue: this wants a number from 1 on"), (["--after", "0"], "--after: this wants a number from 1 on"), (["--after", "-1"], "--after: -1: this wants a number"),
    ):
        refused(" ".join(words), ["write", full, "t", "rs2", *words], part)
    write("bad.fio", "[a]\nrw=write\n")
    refused("a job file that is refused", ["write", "bad.fio", "t", "rs2"], "refused 8 NoSize 0")
    refused("no fiocut", ["write", full, "t", "rs2"], "No such file", env={"FIOCUT": "/nowhere/fiocut"})
    refused("no drive", ["write", full, "t", "rs2"], "No such file", env={"DRIVE": "/nowhere/drive"})
    tell("nothing of these has put a state aside", os.path.exists("rs2"), False)
    tell_has("--help", run("--help")[1], "--after N")
    fields = "sequential blocks=1 total=1 bs=512 seed=1 depth=1 window=1 verify=stamp save=1 load=0 fatal=0 file=x"
    write("name.fio", f"[a {fields[:60]}]\nrw=write\nbs=4k\nsize=256k\nfilename=b {fields}\n")
    tell("names that read like fields: the write", run("write", "name.fio", "named3", "ns")[0], 0)
    check("names that read like fields: the check", "name.fio", "named3", "ns", [])


def first_words():
    """What each program of the harness answers to its first word, and to a wrong one."""
    with open(f"{HERE}/../../VERSION", encoding="ascii") as it:
        version = it.read().strip()
    for name, due in (("drive-target", "--after N"), ("drive-agent", "--queue N"), ("drive-witness", "--cycles N"), ("fleet-server", "--orphan SECONDS")):
        program = f"{OUT}/{name}"
        status, printed, said = run("--help", program=program)
        tell(f"{name} --help: its status, and what is said", (status, said), (0, ""))
        tell_has(f"{name} --help", printed, due)
        tell(f"{name} --version", run("--version", program=program), (0, f"{name} of fiocut {version}, not proved\n", ""))
        status, printed, said = run("--frob", program=program)
        tell(f"{name} --frob: its status, and what is printed", (status, printed), (2, ""))
        tell_has(f"{name} --frob: which word is wrong", said, "--frob")


def found_programs():
    """The proved programs are those that FIOCUT and DRIVE name, else those beside the harness's own,
    also where that is called by a link, else those on the PATH."""
    def checked(program, path, *named):
        words = ["-u", "FIOCUT", "-u", "DRIVE", f"PATH={path}", *named, program, "check", "two.fio", "t", "s"]
        status, _, said = run(*words, program="/usr/bin/env")
        return status, said if status == 2 else ""

    whole_run()
    for at in ("beside", "other"):
        os.makedirs(at)
    shutil.copy2(TARGET, "beside/drive-target")
    os.symlink("beside/drive-target", "linked")
    none = "drive-target: fiocut: there is no such program: FIOCUT names it, or it stands beside this one, or on the PATH\n"
    tell("where there is none", checked("./linked", "/nowhere"), (2, none))
    for name in ("fiocut", "drive"):
        os.symlink(os.environ[name.upper()], f"beside/{name}")
        write(f"other/{name}", "#!/bin/sh\necho other\n")
        os.chmod(f"other/{name}", 0o755)
    beside, other = (os.path.abspath(it) for it in ("beside", "other"))
    tell("beside it, called by a link", checked("./linked", "/nowhere"), (0, ""))
    tell("beside it goes before the PATH", checked("./linked", f"{other}:/bin"), (0, ""))
    tell("on the PATH", checked(TARGET, f"/nowhere:{beside}:/bin"), (0, ""))
    tell("what FIOCUT names goes first", checked("./linked", "/bin", f"FIOCUT={other}/fiocut")[0], 2)


def folders():
    """A new target's name is kept before anything is written to it, and the state's before it is
    said to be there."""
    os.mkdir("targets")
    os.mkdir("states")
    env = {"LD_PRELOAD": LIAR, "LIE_LOG": os.path.abspath("synced"), "LIE_SYNCS": "1", "LIE_TARGET": "/new"}
    tell("a new target", run("write", "two.fio", "targets/new", "states/ns", env=env)[0], 0)
    lines = read("synced").decode().splitlines()
    first = next(at for at, line in enumerate(lines) if line.startswith("made "))
    tell("the folder of a new target is synced before its first write", f"synced {os.path.realpath('targets')}" in lines[:first], True)
    tell("the target is synced before that", f"synced {os.path.realpath('targets/new')}" in lines[: lines.index(f"synced {os.path.realpath('targets')}")], True)
    tell("the folder of the state is synced behind the last write", lines[-1], f"synced {os.path.realpath('states')}")
    tell("and the state before that", lines[-2], f"synced {os.path.realpath('states')}/ns.new")


def states():
    """States that can't be kept or read."""
    whole_run()
    write("long state", bytes(5000))
    status, _, said = run("check", "two.fio", "t", "long state")
    tell("a state that is too long", (status, "too long" in said), (2, True))
    write("cut", state_in("s")[:135])
    status, printed, _ = run("check", "two.fio", "t", "cut")
    tell("a state that is cut short", (status, printed), (2, "refused 30 Short\n"))
    job("larger.fio", blocks=32, writes=64, block_size=8192)
    status, printed, said = run("check", "larger.fio", "t", "s")
    tell("another job", (status, printed, "another job file" in said), (2, "", True))
    write("bare", state_in("s"))
    tell("another job, by a bare state", run("check", "larger.fio", "t", "bare")[:2], (2, "refused 37 OtherJob\n"))
    check("the job, by a bare state", "two.fio", "t", "bare", [])
    status, _, said = run("write", "two.fio", "kept", "ks", "--keep", "false", "--cut", "touch was-cut")
    tell("a state that isn't kept elsewhere: no cut", (status, os.path.exists("was-cut")), (2, False))
    status, _, said = run("write", "two.fio", "kept", "ks", "--keep", "cat >elsewhere", "--cut", "touch was-cut")
    tell("kept elsewhere, and cut", (status, os.path.exists("was-cut"), read("elsewhere") == read("ks")), (0, True, True))
    tell_has("the state on the tested drive", said, "empties that drive's cache")
    status, _, said = run("write", "two.fio", "kept", "nowhere/ks")
    tell("a folder that isn't there", (status, "nowhere/ks: No such file" in said), (2, True))
    write("white.fio", b"\n \n" + read("two.fio"))
    tell("a job file that begins with an empty line", run("write", "white.fio", "white", "ws")[0], 0)
    check("a job file that begins with an empty line: its check", "white.fio", "white", "ws", [])
    job("none.fio", blocks=64, writes=64)
    env = {"LD_PRELOAD": LIAR, "LIE": "failed:1", "LIE_TARGET": "/none"}
    tell("all writes fail", run("write", "none.fio", "none", "ns", env=env)[0], 2)
    status, printed, said = run("check", "none.fio", "none", "ns")
    tell("a check that checks nothing", (status, printed), (3, report([], 0)))
    tell("its last line", run("check", "none.fio", "none", "ns", whole=True)[1].splitlines()[-1], "no verdict: by that state no block had to hold anything")
