#!/usr/bin/env python3
"""What stands for qemu, nbdkit and socat where harness/machines is tested without a virtual machine. By the
name that it is called by it is one of them:

    nbdkit              a disk: its socket is there while it lives. It keeps what is written. As it is killed
                        DISK.fallen is there until it lives again, and a second one at the same time is told
                        in the file `twice`
    qemu-system-x86_64  a machine: an agent over its first disk answers at its port, and dies with it. Where
                        that disk has no power, writes and reads fail
    socat               standard input and output, to and from a port or a socket

AGENT and LIAR name the agent, and the target that lies."""
import ctypes
import os
import re
import signal
import socket
import subprocess
import sys
import threading

PR_SET_PDEATHSIG = 1


def die_with_parent():
    ctypes.CDLL(None).prctl(PR_SET_PDEATHSIG, signal.SIGKILL)


def is_alive(path):
    return os.path.exists(path) and os.path.exists(f"/proc/{open(path, encoding='ascii').read()}")


def be_disk(words):
    name = words[words.index("file") + 1]
    if is_alive(f"{name}.alive"):
        with open("twice", "a", encoding="ascii") as it:
            it.write(f"{name}\n")
    with open(f"{name}.alive", "w", encoding="ascii") as it:
        it.write(str(os.getpid()))
    ends, own = os.pipe()
    if os.fork() == 0:
        os.close(own)
        os.read(ends, 1)  # (its end, as this process is killed)
        open(f"{name}.fallen", "wb").close()
        os._exit(0)
    if os.path.exists(f"{name}.fallen"):
        os.remove(f"{name}.fallen")
    open(words[words.index("-U") + 1], "wb").close()
    signal.pause()


def be_machine(words):
    said = " ".join(words)
    port, disk = re.search(r"tcp:127\.0\.0\.1:(\d+)-", said)[1], re.search(r"socket=(disk\d+)\.socket", said)[1]
    lies = {"LD_PRELOAD": os.environ["LIAR"], "LIE": "fallen:1", "LIE_TARGET": f"/{disk}", "LIE_UNTIL": os.path.abspath(f"{disk}.fallen"), "LIE_READS_FALL": "1"}
    with socket.create_server(("127.0.0.1", int(port))) as door:
        print("\nDISK write back, FUA 1\nUP", flush=True)
        while True:
            link, _ = door.accept()
            subprocess.Popen([os.environ["AGENT"], disk, "--yes"], stdin=link, stdout=link, stderr=subprocess.DEVNULL, env={**os.environ, **lies}, preexec_fn=die_with_parent)
            link.close()


def copy(read, send, end):
    while data := read(1 << 16):
        send(data)
    end()


def be_link(words):
    kind, _, place = words[-1].partition(":")
    host, _, port = place.partition(":")
    with socket.create_connection((host, int(port))) if kind == "TCP" else socket.socket(socket.AF_UNIX) as it:
        if kind != "TCP":
            it.connect(place)
        threading.Thread(target=copy, args=(lambda most: os.read(0, most), it.sendall, lambda: it.shutdown(socket.SHUT_WR)), daemon=True).start()
        copy(it.recv, lambda data: os.write(1, data), lambda: None)


if __name__ == "__main__":
    called = os.path.basename(sys.argv[0])
    if "--version" in sys.argv:
        print(f"{called} of a test")
    elif called == "socat":
        be_link(sys.argv)
    else:
        die_with_parent()
        be_disk(sys.argv) if called == "nbdkit" else be_machine(sys.argv)
