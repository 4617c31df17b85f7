"""Hosts of a test: network namespaces, joined by wires that lose packets, of which this process is
the hub. It wants root, `ip`, and /dev/net/tun; the kernel's own loss (netem) it doesn't want."""
import fcntl
import os
import random
import select
import struct
import subprocess
import threading

TUNSETIFF, TAP, NO_HEAD, LONGEST = 0x400454CA, 2, 0x1000, 65536


def ip(*words):
    return subprocess.run(["ip", *words], stdout=subprocess.DEVNULL, stderr=subprocess.PIPE, check=False).returncode == 0


class Hosts:
    """So many hosts, of which each sees the others, at 10.77.0.1 and so on."""

    def __init__(self, count, loss, seed=1):
        self.names = [f"fiocut-{os.getpid()}-{at}" for at in range(count)]
        self.loss, self.chance, self.wires = loss, random.Random(seed), []
        self.carried = self.lost = 0
        self.is_up = os.geteuid() == 0 and all(self.add(at, name) for at, name in enumerate(self.names))
        self.ends = os.pipe()
        self.hub = threading.Thread(target=self.carry, daemon=True)
        self.hub.start()

    def add(self, at, name):
        """Makes a host, with the wire from it."""
        device = f"fc{os.getpid() % 100000}.{at}"
        try:
            wire = os.open("/dev/net/tun", os.O_RDWR | os.O_NONBLOCK)
            fcntl.ioctl(wire, TUNSETIFF, struct.pack("16sH22x", device.encode(), TAP | NO_HEAD))
        except OSError:
            return False
        self.wires.append(wire)
        inside = ("netns", "exec", name, "ip")
        return (
            ip("netns", "add", name)
            and ip("link", "set", device, "netns", name)
            and ip(*inside, "address", "add", f"10.77.0.{at + 1}/24", "dev", device)
            and ip(*inside, "link", "set", "lo", "up")
            and ip(*inside, "link", "set", device, "up")
        )

    def carry(self):
        """Brings each packet to all other hosts, or loses it."""
        while True:
            ready, _, _ = select.select([*self.wires, self.ends[0]], [], [])
            if self.ends[0] in ready:
                return
            for wire in ready:
                self.bring(wire)

    def bring(self, wire):
        try:
            packet = os.read(wire, LONGEST)
        except OSError:
            return
        self.carried += 1
        if self.chance.random() < self.loss:
            self.lost += 1
            return
        for other in self.wires:
            if other != wire:
                try:
                    os.write(other, packet)
                except OSError:
                    pass # it isn't up, or has no room

    def on(self, at):
        """The words that run a command on a host."""
        return ["ip", "netns", "exec", self.names[at]]

    def address(self, at):
        return f"10.77.0.{at + 1}"

    def close(self):
        os.write(self.ends[1], b".")
        self.hub.join()
        for it in self.wires:
            os.close(it)
        for it in self.names:
            ip("netns", "del", it)
