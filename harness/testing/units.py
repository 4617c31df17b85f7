"""The unit that starts a fleet's server: systemd takes it as it is, and its command starts a server, which
may be stopped in the middle of a run."""
import os
import re
import shutil
import subprocess

from serving import SERVER, TOP, await_done, fleet, fleet_once, job_file, reports
from trying import HANG, OUT, QUIET, await_file, await_text, read, skip, tell, write

UNIT = f"{TOP}/harness/server/fleet-server@.service"


def analysed(name, text):
    """What systemd says of a unit of this text, as one of a server."""
    write(f"{name}@.service", text)
    ran = subprocess.run(["systemd-analyze", "verify", "--man=no", f"./{name}@0.service"], capture_output=True, text=True)
    return [it for it in (ran.stdout + ran.stderr).splitlines() if name in it]


def words_of(text, targets, options):
    """The words of its command, with these in the place of the variables."""
    command = re.search(r"^ExecStart=(.*)$", text, re.M)[1].replace("%i", "0").split()
    command[0] = SERVER
    return [it for word in command for it in {"$TARGETS": targets, "$OPTIONS": options}.get(word, [word])]


def units():
    """The unit is taken, and says so where it isn't; its command starts a server, which is stopped."""
    text = read(UNIT).decode()
    own = text.replace("/usr/local/bin/fleet-server", SERVER)
    if shutil.which("systemd-analyze"):
        tell("systemd takes the unit", analysed("fleet-server", own), [])
        tell("and tells what it doesn't know", len(analysed("other", own.replace("Restart=", "Restarts=").replace("fleet-server@", "other@"))) > 0, True)
    else:
        skip("systemd-analyze", "whether systemd takes the unit of a server")
    tell("nothing enables it", [it for it in ("systemctl", "preset") if it in read(f"{TOP}/Makefile").decode()], [])
    words = [it.replace("/var/lib/fleet-server/", f"{os.getcwd()}/") for it in words_of(text, ["unit-a", "unit-b"], ["--cached"])]
    links = ["--server", f"exec {OUT}/fleet-server link --note 0.note 2>/dev/null"]
    job_file("unit.fio", blocks=64, writes=100_000)
    for turn in range(2):
        stopped(words, links, turn)
    server = start(words)
    tell("and then a run", fleet_once(lambda: await_done(("unit-a", "unit-b"), 2), "unit.fio", "--note", "unit.note", *links)[0], 0)
    stop(server)
    server = start(words)
    status, printed, _ = fleet("check", "unit.fio", "--note", "unit.note", *links)
    tell("whose check is by its states, behind a stop", (status, [it[1] for it in reports(printed).values()]), (0, [0, 0]))
    stop(server)


def start(words):
    if os.path.exists("0.note.socket"):
        os.remove("0.note.socket")
    with open("unit.said", "ab") as said:
        server = subprocess.Popen(words, stdin=subprocess.DEVNULL, stdout=subprocess.DEVNULL, stderr=said)
    await_file("0.note.socket")
    return server


def stop(server):
    server.terminate()
    return server.wait(HANG)


def stopped(words, links, turn):
    """A server is stopped in the middle of a run, as systemd stops it: by SIGTERM."""
    server = start(words)
    write("unit.said", "")
    writing = subprocess.Popen([f"{TOP}/harness/fleet", "write", "unit.fio", "--note", "unit.note", "--after", "600", *links], **QUIET)
    await_text("unit.said", "is begun")
    tell(f"turn {turn}: a stop in a run", stop(server), -15)
    writing.kill()
    writing.wait()
