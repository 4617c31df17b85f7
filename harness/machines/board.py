"""A board of switches: the commands by which a witness gives and cuts the power of a virtual machine."""
import os
import socketserver


class Switch(socketserver.BaseRequestHandler):
    """Has the machine of its server do a word: on, off, disk_on, disk_off or member_off."""

    def handle(self):
        getattr(self.server.machine, self.request.recv(100).decode().strip())()
        self.request.sendall(b"done")


class Board(socketserver.UnixStreamServer):
    """Hears the commands that switch a machine's power. The main thread has to serve it: nbdkit
    ends with the thread that started it."""

    timeout = 0.1

    def __init__(self, machine):
        self.machine, self.path = machine, f"{machine.work}/switch"
        super().__init__(self.path, Switch)

    def command(self, word):
        return f'test "$(echo {word} | socat -t 600 - UNIX-CONNECT:{self.path})" = done'
