"""The story of examples/worlds/lost.world on a real fleet, frame by frame: as the world has it, and
byte by byte as nodes without a harness have it."""
import contextlib
import importlib.machinery
import importlib.util
import io
import os
import re
import shlex
import struct
import subprocess
import sys
import time

from serving import SERVER, TOP, Servers
from trying import HANG, HERE, LIAR, read, tell, write

sys.path.insert(0, f"{TOP}/harness/client")

import fleet as client
import stories
import texts
from note import KeptNote

STORY = f"{TOP}/examples/worlds/lost.world"


def as_world():
    """The module of examples/nodes/as-world."""
    loader = importlib.machinery.SourceFileLoader("as_world", f"{TOP}/examples/nodes/as-world")
    module = importlib.util.module_from_spec(importlib.util.spec_from_loader("as_world", loader))
    loader.exec_module(module)
    return module


def frames_of_nodes(world):
    """The frames of the story on nodes, in their order, and what as-world printed of it."""
    worlds = []

    class Remembered(world.World):
        def __init__(self, *words):
            super().__init__(*words)
            worlds.append(self)

    world.World = Remembered
    _, output = world.play_script(STORY)
    return worlds[0].frames, output


def texts_of_story(world):
    """The two job files of the story: as it writes, and as it reads."""
    with open(STORY, encoding="ascii") as it:
        return [text for _, words, text in world.commands(it.read().splitlines()) if words[0] in ("begin", "verify")]


class Story:
    """The story by fleet's own client: it begins, triggers once both writes are done, and checks once
    the server is there again."""

    def __init__(self, servers, link):
        # (numbers that begin at 1, and no frame twice: the world has no clock)
        KeptNote("world.note").keep(b"FCC2" + struct.pack(">QQQI", 0, 0, 0, 0))
        client.TICKS = 3600
        self.servers, self.link, self.verdict, self.reports = servers, link, None, {}

    def run(self, reading):
        with contextlib.redirect_stderr(io.StringIO()):
            self.play(reading)

    def play(self, reading):
        fleet = client.Fleet("world.note", [self.link])
        stories.write(fleet, "world.fio", stories.Trigger(writes=2), wait=HANG, acts=True)
        self.servers.running[0].wait(HANG)
        self.servers.start(0, options=["--cached"])
        self.await_link(fleet)
        texts.reading = lambda _: reading
        self.verdict, self.reports = stories.check(fleet, "world.fio", wait=HANG)
        fleet.close()

    def await_link(self, fleet):
        until, came = time.monotonic() + HANG, fleet.servers[0].came
        while fleet.servers[0].came == came and time.monotonic() < until:
            fleet.servers[0].ask_ends()
            time.sleep(0.05)


def lost_world():
    """Write 1 is told as done and never lands."""
    world = as_world()
    writing, reading = texts_of_story(world)
    write("world.fio", writing)
    write("world-0-0", bytes(1024)) # (a world's file has zeros where nothing landed)
    servers = Servers("world", 0, jobs=1)
    servers.count, servers.running = 1, [None]
    lie = {"LD_PRELOAD": LIAR, "LIE": "lost:2", "LIE_TARGET": "world-0-0"}
    servers.start(0, lie, ["--cached", "--cut", "kill -9 $PPID"])
    tap = f"exec {shlex.quote(sys.executable)} {shlex.quote(f'{HERE}/tapped.py')} world.frames"
    story = Story(servers, f"{tap} {shlex.quote(f'exec {shlex.quote(SERVER)} link --note {servers.note(0)} 2>/dev/null')}")
    story.run(reading)
    servers.cut()
    frames = [bytes.fromhex(line.split()[1]) for line in read("world.frames").decode().splitlines()]
    due, output = frames_of_nodes(world)
    tell("byte by byte as nodes without a harness", frames, due)
    said = subprocess.run([os.environ["FIOCUT"], "world"], input=read(STORY), stdout=subprocess.PIPE, check=False).stdout.decode()
    names = {0: "0", 8: "client"}
    sent = [f"sent {at} {names[it[7]]} {names[it[11]]} {world.KINDS[it[3]]} {len(it)}" for at, it in enumerate(frames)]
    tell("frame by frame as the world", sent, re.findall(r"^sent .*", said, re.M))
    tell("the report", [f"ok report {it.line()}" for it in story.reports.values()], re.findall(r"^ok report .*", said, re.M))
    tell("it is one of a fault", story.verdict and story.verdict.word, stories.FAULTS)
