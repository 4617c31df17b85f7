"""Fleets over TCP: on this machine, by links that end anywhere; and on hosts of their own, network
namespaces whose wires lose one packet in ten."""
import os
import random
import re
import shlex
import shutil
import signal
import socket
import subprocess
import threading

from fleets import written
from hosts import Hosts
from serving import FLEET, SERVER, TOP, Servers, earliest, fleet, fleet_until_done, job_file, reports
from trying import BLOCK, HANG, LIAR, QUIET, read, run, skip, tell, write

BAD_LINK = f"{TOP}/tools/bad-link"


def free_port():
    with socket.socket() as it:
        it.bind(("127.0.0.1", 0))
        return it.getsockname()[1]


class Listening:
    """A socat for each server, which starts a link to it for each connection."""

    def __init__(self, servers):
        self.ports, self.is_closed = [free_port() for _ in range(servers.count)], threading.Event()
        self.running = [subprocess.Popen(["socat", f"TCP-LISTEN:{port},bind=127.0.0.1,reuseaddr,fork", f"EXEC:{SERVER} link --note {servers.note(at)}"], start_new_session=True, **QUIET) for at, port in enumerate(self.ports)]

    def links(self):
        commands = [f"exec {shlex.quote(BAD_LINK)} --cut 0.05 --lose 0 --repeat 0 --late 0 'exec socat - TCP:127.0.0.1:{port}'" for port in self.ports]
        return [it for command in commands for it in ("--server", command)]

    def break_some(self, chance):
        """Kills connections as they are, again and again, and ever less often: on a slow machine
        they are to come to something, too."""
        pause = 0.5
        while not self.is_closed.wait(chance.uniform(pause / 5, pause)):
            pause *= 1.02
            pid = self.running[chance.randrange(len(self.running))].pid
            for child in read(f"/proc/{pid}/task/{pid}/children").split():
                try:
                    os.kill(int(child), signal.SIGKILL)
                except ProcessLookupError:
                    pass

    def close(self):
        self.is_closed.set()
        for it in self.running:
            os.killpg(it.pid, signal.SIGKILL)
            it.wait()


def over_tcp():
    """Connections are killed, and end in the middle of a frame: nothing but frames is lost by it, and
    no part of one goes to the next connection."""
    if not shutil.which("socat"):
        return skip("socat", "over_tcp: there is no socat")
    job_file("tcp.fio", jobs=2, blocks=128, writes=100_000)
    servers = Servers("tcp", 3)
    listening = Listening(servers)
    breaking = threading.Thread(target=listening.break_some, args=(random.Random(4),), daemon=True)
    breaking.start()
    status, printed, said = fleet_until_done(servers, "tcp.fio", "--note", "tcp.note", *listening.links())
    tell("a fleet writes over TCP", (status, "the states are kept" in printed), (0, True))
    servers.cut()
    data = bytearray(read("tcp-2-1"))
    block = earliest(data)
    data[block * BLOCK + 5] ^= 1
    write("tcp-2-1", bytes(data))
    servers.restart()
    status, printed, more = fleet("check", "tcp.fio", "--note", "tcp.note", "--map", *listening.links())
    tell("its check", (status, {at: it[3] for at, it in reports(printed).items() if it[1]}), (1, {(2, 1): [block]}))
    tell("what that block holds", len(re.findall(rf"server 2 job 1: block {block} [a-z-]+: ", printed)), 1)
    listening.is_closed.set()
    breaking.join()
    listening.close()
    servers.cut()
    whole = said + more + "".join(read(servers.said(it)).decode() for it in range(3))
    tell("what came over a link was frames", "is no frame" in whole, False)


class HostServers(Servers):
    """Servers on hosts of their own, behind the client's, each with a socat that starts links."""

    def __init__(self, name, hosts):
        super().__init__(name, 0)
        self.hosts, self.count = hosts, len(hosts.names) - 1
        self.running = [None] * self.count
        self.listening = [subprocess.Popen([*self.before(at), "socat", "TCP-LISTEN:7000,reuseaddr,fork", f"EXEC:{SERVER} link --note {self.note(at)}"], start_new_session=True, **QUIET) for at in range(self.count)]

    def before(self, server):
        return self.hosts.on(server + 1)

    def links(self, before="exec"):
        return [it for at in range(self.count) for it in ("--server", f"{before} socat - TCP:{self.hosts.address(at + 1)}:7000")]

    def fleet(self, *words):
        """Runs the client on the first host."""
        return run(*self.hosts.on(0)[1:], FLEET, *words, *self.links(), program="ip")

    def close(self):
        self.cut()
        for it in self.listening:
            os.killpg(it.pid, signal.SIGKILL)
            it.wait()


def on_hosts():
    """Four hosts, whose wires lose one packet in ten: one target loses writes, and just these are
    faults."""
    if not (shutil.which("socat") and shutil.which("ip")):
        return skip("hosts", "on_hosts: it wants socat and ip")
    hosts = Hosts(4, 0.1)
    if hosts.is_up:
        lies_on_hosts(hosts)
    else:
        skip("hosts", "on_hosts: there can be no network namespaces, or no /dev/net/tun")
    hosts.close()


def lies_on_hosts(hosts):
    job_file("hosts.fio", jobs=2, blocks=256, writes=200)
    servers = HostServers("hosts", hosts)
    lie = {"LD_PRELOAD": LIAR, "LIE": "lost:37", "LIE_TARGET": "hosts-2-1", "LIE_LOG": "hosts.log"}
    for at in range(3):
        servers.start(at, lie if at == 2 else None)
    status, printed, _ = servers.fleet("write", "hosts.fio", "--note", "hosts.note", "--after-writes", "1200")
    tell("a fleet of hosts writes", (status, "the states are kept" in printed), (0, True))
    servers.cut()
    servers.restart()
    status, printed, _ = servers.fleet("check", "hosts.fio", "--note", "hosts.note", "--map", "--wait", str(HANG))
    due = written(read("hosts.log"))
    tell("its check", (status, {at: it[:2] for at, it in reports(printed).items()}), (1, {(s, j): (200, len(due) if (s, j) == (2, 1) else 0) for s in range(3) for j in range(2)}))
    tell("the blocks that were lost", [int(it) for it in re.findall(r"server 2 job 1: block (\d+) (?:unwritten|lost): ", printed)], due)
    servers.close()
    tell("packets were lost", hosts.lost > 0, True)
