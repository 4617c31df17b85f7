"""Tests what is made to be handed on, and what is installed of it: tools/dist and tools/install."""
import os
import platform
import re
import shutil
import subprocess

from clones import PROGRAMS, TOP, make_clone, make_release, read, run, skip, tell, tell_has
from helps import copied, listing

BIN = ("drive", "drive-agent", "drive-target", "drive-witness", "fiocut", "fiocut-draw", "fiocut-every-cut", "fiocut-from-fio", "fiocut-judge", "fiocut_node", "fiocut_seen", "fleet", "fleet-server")
TARGET = platform.machine()


def released_copy(room):
    """Makes a copy of the repository with a planted release, under git."""
    clone, top = make_clone(room), copied(room)
    shutil.copytree(f"{clone}/crates", f"{top}/crates")
    shutil.copytree(f"{clone}/bench", f"{top}/bench", dirs_exist_ok=True)
    shutil.copy2(f"{clone}/crates.txt", f"{top}/crates.txt")
    for it in ("RELEASE", "x86_64", "aarch64"):
        subprocess.run(["rm", "-rf", f"{top}/release/{it}"], check=True)
    make_release(room, top, read(f"{TOP}/VERSION").strip())
    for words in (["init", "-q"], ["add", "-A"], ["-c", "user.name=A B", "-c", "user.email=a@b.example", "commit", "-qm", "a"]):
        subprocess.run(["git", *words], cwd=top, check=True)
    return top


def answers(what, bin, version, made):
    """Looks whether each command of a folder answers as one that is installed."""
    tell(f"{what}: its commands", tuple(sorted(os.listdir(bin))), BIN)
    for it in BIN:
        status, printed, said = run(f"{bin}/{it}", "--help")
        tell(f"{what}: {it} --help", (status, said, len(printed) > 100), (0, "", True))
        status, printed, said = run(f"{bin}/{it}", "--version")
        tell(f"{what}: {it} --version", (status, said), (0, ""))
        tell_has(f"{what}: {it} --version names it", printed, version)
        if it in PROGRAMS:
            tell_has(f"{what}: {it} --version says who proved it", printed, f"proved: {made}\n")
    tell(f"{what}: fiocut runs", run(f"{bin}/fiocut", "jobs")[:2], (1, "release-of-fiocut\nword jobs\nread\n"))
    status, printed, said = run(f"{bin}/fiocut", "world", "FILE")
    tell(f"{what}: a wrong word", (status, printed), (2, "bad command\n"))
    tell_has(f"{what}: which word is wrong", said, "fiocut: FILE: world takes no word")
    status, printed, said = run(f"{bin}/fiocut-from-fio", "--what")
    tell_has(f"{what}: a wrong option", said, "--what: there is no such option")


def tarballs(room):
    """A tarball has programs that need no library, and answers where it is unpacked; made twice it is
    the same; and what it has is what its sums say."""
    top, version = released_copy(room), read(f"{TOP}/VERSION").strip()
    name = f"fiocut-{version}-linux-{TARGET}"
    made = run(f"{top}/tools/dist", TARGET)
    tell(f"it is made: {made[2]}", made[0], 0)
    first = subprocess.run(["sha256sum", f"{top}/release/out/dist/{name}.tar.gz"], stdout=subprocess.PIPE).stdout
    tell("made twice it is the same", (run(f"{top}/tools/dist", TARGET)[0], subprocess.run(["sha256sum", f"{top}/release/out/dist/{name}.tar.gz"], stdout=subprocess.PIPE).stdout), (0, first))
    os.makedirs(f"{room}/unpacked")
    subprocess.run(["tar", "-C", f"{room}/unpacked", "-xf", f"{top}/release/out/dist/{name}.tar.gz"], check=True)
    answers("tarball", f"{room}/unpacked/{name}/bin", version, f"release {version}")
    tell("its sums", run("sha256sum", "--quiet", "-c", "SHA256SUMS", at=f"{room}/unpacked/{name}"), (0, "", ""))
    for it in os.listdir(f"{room}/unpacked/{name}/lib/fiocut/programs"):
        if not it.endswith(".built"):
            told = subprocess.run(["readelf", "-d", f"{room}/unpacked/{name}/lib/fiocut/programs/{it}"], stdout=subprocess.PIPE, text=True).stdout
            tell(f"{it} needs no library", "NEEDED" in told, False)
    with open(f"{top}/VERSION", "w") as it:
        it.write("99.0\n")
    tell_has("of another version nothing is made", run(f"{top}/tools/dist")[2], "VERSION is 99.0, and release/ is of ")
    if TARGET == "x86_64" and shutil.which("aarch64-linux-gnu-gcc"):
        tell_has("the release has to have an object for the target", run(f"{top}/tools/dist", "aarch64")[2], "VERSION is 99.0")


def installed(room):
    """What is installed answers, and is removed again to the last file."""
    if not shutil.which("make"):
        return skip("make", "it isn't installed")
    top, version = released_copy(room), read(f"{TOP}/VERSION").strip()
    tell_has("without programs nothing is installed", run(f"{top}/tools/install", "--destdir", f"{room}/to")[2], "fiocut isn't there: ./build")
    tell("nothing of it is there", os.path.exists(f"{room}/to"), False)
    tell("the programs are built", run(f"{top}/build", *PROGRAMS)[0], 0)
    os.makedirs(f"{room}/to/usr/bin")
    os.makedirs(f"{room}/to/usr/lib/systemd/system")
    with open(f"{room}/to/usr/bin/other", "w") as it:
        it.write("other\n")
    before = listing(f"{room}/to")
    tell("make install", run("make", "-s", "install", "PREFIX=/usr", f"DESTDIR={room}/to", at=top)[::2], (0, ""))
    os.rename(f"{room}/to/usr/bin/other", f"{room}/other")
    answers("installed", f"{room}/to/usr/bin", version, f"release {version}")
    os.rename(f"{room}/other", f"{room}/to/usr/bin/other")
    listed = run(f"{top}/tools/install", "--prefix", "/usr", "--list")[1].splitlines()
    found = {it[len(f"{room}/to") :] for it in listing(f"{room}/to")} - {"/usr/bin/other"}
    tell("--list tells what is installed", set(listed) ^ found, set())
    unit = read(f"{room}/to/usr/lib/systemd/system/fleet-server@.service")
    tell("the unit names what is installed", [it in found for it in re.findall(r"(?:ExecStart|NODE)=(\S+)", unit)], [True, True])
    tell("a program that was changed isn't told as proved", changed(f"{room}/to/usr"), "unproved: it isn't the program that was installed\n")
    tell("make uninstall", run("make", "-s", "uninstall", "PREFIX=/usr", f"DESTDIR={room}/to", at=top)[::2], (0, ""))
    tell("nothing of it is left, and all else is", listing(f"{room}/to"), before)
    left = [it for at, names, _ in os.walk(f"{room}/to") for it in names if "fiocut" in it]
    tell("no folder of its own is left", left, [])


def changed(usr):
    with open(f"{usr}/lib/fiocut/programs/drive", "ab") as it:
        it.write(b"more")
    return run(f"{usr}/bin/drive", "--version")[1][-len("unproved: it isn't the program that was installed\n") :]


def packages(room):
    """The package has what is installed, and lintian finds nothing wrong with it."""
    if not shutil.which("dpkg-deb"):
        return skip("dpkg-deb", "it isn't installed")
    top, version = released_copy(room), read(f"{TOP}/VERSION").strip()
    made = run(f"{top}/tools/dist", "--deb", TARGET)
    tell(f"it is made: {made[2]}", made[0], 0)
    package = f"{top}/release/out/dist/fiocut_{version}_{'amd64' if TARGET == 'x86_64' else 'arm64'}.deb"
    subprocess.run(["dpkg-deb", "-x", package, f"{room}/x"], check=True)
    answers("package", f"{room}/x/usr/bin", version, f"release {version}")
    if not shutil.which("lintian"):
        return skip("lintian", "it isn't installed")
    status, printed, said = run("lintian", "--fail-on", "error,warning,info", "--allow-root", package)
    tell("lintian", (status, printed), (0, ""))
