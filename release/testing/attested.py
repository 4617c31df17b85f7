"""Tests tools/release and tools/attest, over a kit that stands for Rattle's: its prover makes of each
program an object in which its sources stand, and its linker copies that."""
import lzma
import os
import subprocess

from clones import PROGRAMS, make_clone, read, run, tell, tell_has, write

RT = """#!/bin/sh
case $1 in
    doc) echo "$KIT/START" ;;
    version) echo "planted-kit logic 0123" ;;
    ci)
        [ "$2" = --anew ] && echo anew >>"$KIT/called"
        for it in fiocut drive fiocut_node fiocut_seen; do
            mkdir -p crates/$it/out
            (cd crates/$it && "$KIT/bin/rattle" build --crate-name $it --target x86_64 -o out/$it >/dev/null)
        done
        echo "${FAILS:-4 passed, 0 failed}"
        ;;
esac
"""
RATTLE = """#!/bin/sh
name= target= to=
while [ $# -gt 0 ]; do
    case $1 in --crate-name) name=$2 ;; --target) target=${2%%-*} ;; -o) to=$2 ;; esac
    shift
done
[ "$name" != "$UNPROVED" ] || { echo "logic=not-proved"; exit 1; }
cat src/main.rt ../fc_base/src/lib.rt >"$to"
echo "$target $CHANGED" >>"$to"
echo "logic=proved functions=1 target=$target"
"""
LINK = """#!/bin/sh
while [ $# -gt 2 ]; do case $1 in -o) to=$2; from=$3 ;; esac; shift; done
cp "$from" "$to"
"""


def with_kit(room):
    """Makes a clone under git, and a kit, and returns both, and what runs a tool with that."""
    clone, kit = make_clone(room), f"{room}/kit"
    for path, text in (("rt", RT), ("bin/rattle", RATTLE), ("bin/rattle-link", LINK)):
        write(f"{kit}/{path}", text)
        os.chmod(f"{kit}/{path}", 0o755)
    write(f"{clone}/HANDLES", "Handles allowed: none.\n")
    write(f"{clone}/.gitignore", "out/\n__pycache__/\n")
    for words in (["init", "-q"], ["add", "-A"], ["-c", "user.name=a", "-c", "user.email=a@b", "commit", "-qm", "a"]):
        subprocess.run(["git", *words], cwd=clone, check=True)
    return clone, kit, lambda tool, *words, **env: run(f"{clone}/tools/{tool}", *words, PATH=f"{kit}:/usr/bin:/bin", KIT=kit, **env)


def commit(clone):
    subprocess.run(["git", "-c", "user.name=a", "-c", "user.email=a@b", "commit", "-qam", "a"], cwd=clone, check=True)


def released(room):
    """A release has an object of each program and target, and tells their sums, verdicts and commit."""
    clone, kit, call = with_kit(room)
    version = read(f"{clone}/VERSION").strip()
    status, _, said = call("release")
    tell(f"a release is made: {said[-300:]}", status, 0)
    text, head = read(f"{clone}/release/RELEASE"), subprocess.run(["git", "rev-parse", "HEAD"], cwd=clone, stdout=subprocess.PIPE, text=True).stdout.strip()
    tell_has("its version, commit, kit and logic", text, f"\nversion {version}\ncommit {head}\nkit planted-kit\nlogic 0123\n")
    for target in ("x86_64", "aarch64"):
        with lzma.open(f"{clone}/release/{target}/drive.o.xz", "rt") as it:
            tell(f"the object of drive for {target}", it.read(), f"// drive\n// fc_base\n{target} \n")
        tell_has(f"the verdict on drive for {target}", text, f"verdict {target} logic=proved functions=1 target={target}\n")
    tell("each program is told", [f"\nprogram {it}\n" in text for it in PROGRAMS], [True] * 4)
    tell_has("--again is needed for the same version", call("release")[2], f"release/ has version {version} already")
    write(f"{clone}/crates/drive/src/main.rt", "// changed\n")
    tell_has("a release is of a commit", call("release", "--again")[2], "not all is committed")
    commit(clone)
    tell_has("without a proof there is no release", call("release", "--again", UNPROVED="drive")[2], "drive for x86_64: rattle build ended with status 1")
    tell_has("nor where rt ci fails", call("release", "--again", FAILS="3 passed, 1 failed")[2], "rt ci didn't prove all")
    tell("the release is as it was", read(f"{clone}/release/RELEASE"), text)
    tell("--anew has all proved from nothing", (call("release", "--again", "--anew")[0], os.path.exists(f"{kit}/called")), (0, True))


def attested(room):
    """What is made once more has to be the release's, byte for byte; and what the gate has proved."""
    clone, kit, call = with_kit(room)
    tell("without a release nothing is attested", call("attest")[0], 70)
    call("release")
    status, printed, _ = call("attest")
    tell(f"all is attested: {printed}", (status, printed.splitlines()[-1]), (0, "16 passed, 0 failed"))
    status, printed, _ = call("attest", CHANGED="more")
    tell("what is made otherwise", (status, printed.count("FAILED: "), printed.splitlines()[-1]), (1, 8, "8 passed, 8 failed"))
    for it in PROGRAMS:
        out = f"{clone}/crates/{it}/out"
        write(f"{out}/made", f"// {it}\n// fc_base\nx86_64 \n")
        built = f"import provenance as p; p.put('{it}', '{out}/made', 'here planted-kit', p.sources(['{it}']), p.sum_of_sources(p.sources(['{it}'])), 'x')"
        subprocess.run(["python3", "-c", built], cwd=f"{clone}/tools", check=True)
    tell("--built: what was proved here is the release's", call("attest", "--built")[1].splitlines()[-1], "12 passed, 0 failed")
    with open(f"{clone}/crates/drive/out/drive", "a") as it:
        it.write("more")
    tell_has("--built: another program in the place of one", call("attest", "--built")[1], "FAILED: drive: it isn't proved and built here")
    write(f"{clone}/crates/drive/out/made", "another")
    subprocess.run(["python3", "-c", built.replace("fiocut_seen", "drive")], cwd=f"{clone}/tools", check=True)
    tell_has("--built: another program was proved here", call("attest", "--built")[1], "FAILED: drive: what was proved here isn't what the kit links of the release's object")
    with lzma.open(f"{clone}/release/aarch64/fiocut.o.xz", "wb") as it:
        it.write(b"harmed")
    tell_has("--built: a harmed object, also for other machines", call("attest", "--built")[1], "FAILED: fiocut for aarch64: release/aarch64/fiocut.o.xz is harmed")
    write(f"{clone}/crates/fc_base/src/lib.rt", "// changed\n")
    status, printed, _ = call("attest", "--built")
    tell_has("--built: of other sources it says of which commit the release is", printed, f"drive: its sources are others than those of release {read(f'{clone}/VERSION').strip()}, commit ")
    tell("--built: nothing of them is compared", printed.count("attested"), 0)
    tell_has("of other sources nothing is attested", call("attest")[2], "are others than those of release")
