"""The cases of a trigger, and of a client and its servers on one machine."""
import os
import socket
import struct
import threading
import time

from tried import free_port, wait

JOB = "[a]\nioengine=libaio\nbs=4k\nsize=256k\nverify=crc32c\nfilename=data\nrw={}\n"
WRITES, READS = JOB.format("write") + "do_verify=0\n", JOB.format("read") + "verify_state_load=1\n"


class Server:
    """A server of fio in a folder of its own; where it is held, its writes from `below` on never end."""

    def __init__(self, folder):
        self.folder, self.port = folder, free_port()

    def start(self, **env):
        self.process = self.folder.start([self.folder.fio, f"--server=127.0.0.1,{self.port}"], "log", **env)

        def answers():
            with socket.socket() as it:
                return it.connect_ex(("127.0.0.1", self.port)) == 0

        wait(answers)

    def stop(self):
        self.folder.kill()
        self.process.wait()


def log_of(server):
    """Returns what a server has said."""
    return server.folder.read("log").decode(errors="replace")


def client(folder, ports, text, *words):
    """Starts a client of these servers, with one job file for all."""
    folder.write("job.fio", text)
    asked = [it for port in ports for it in (f"--client=127.0.0.1,{port}", "job.fio")]
    return folder.start([folder.fio, "--output-format=json", *words, *asked], "said")


def cut_behind(it, server, ports, done):
    """Has the servers write, sets off the client's trigger once `server` has so many writes done,
    and cuts all."""
    process = client(it, ports, WRITES, "--trigger-file=trigger", "--trigger-remote=touch executed")
    wait(lambda: server.folder.read("log").count(b"done ") >= done)
    time.sleep(0.3)
    it.write("trigger", "")
    wait(it.states, 5)
    time.sleep(1)
    it.kill()
    process.wait()


def lost_state(it):
    """The client's state is lost, or has other bytes. Of 29 blocks one is zeroed."""
    server = Server(it.sub("server"))
    server.start(**it.held(BELOW="29"))
    cut_behind(it, server, [server.port], 29)
    server.stop()
    server.folder.zero(7)
    name = it.states()[0]
    good = it.read(name)
    flipped = bytearray(good)
    flipped[60] ^= 1
    for what, state in (("as it was", good), ("a bit flipped", bytes(flipped)), ("100 bytes", good[:100]), ("empty", b""), ("lost", None)):
        server.port = free_port()
        server.start()
        it.write(name, state or b"")
        if state is None:
            os.unlink(f"{it.path}/{name}")
        process = client(it, [server.port], READS)
        process.wait(30)
        said = it.read("said").decode(errors="replace")
        if state is None:
            # (once in many runs the client has ended with status 0)
            yield f"lost: {'failure on receiving state file' if 'failure on receiving state file' in said + log_of(server) else 'nothing'} told", None
            yield f"(lost: status {process.returncode})", None
        else:
            yield f"{what}: status {process.returncode}, {'a' if 'bad magic' in said else 'no'} fault told", None
        server.stop()


def one_address(it):
    """Two servers with one address; of one 20 writes are done, of the other 5."""
    servers = [Server(it.sub(name)) for name in ("first", "second")]
    for server, below in zip(servers, (20, 5)):
        server.start(**it.held(BELOW=str(below)))
    cut_behind(it, servers[0], [server.port for server in servers], 20)
    for server in servers:
        server.stop()
    yield f"{len(it.states())} state of two servers", None


def dropped_replies(it):
    """What the server replies is dropped from the trigger on."""
    server = Server(it.sub("server"))
    server.start(**it.held(BELOW="10"))
    relay = socket.create_server(("127.0.0.1", 0))
    dropping = threading.Event()

    def carry(source, sink, drops):
        while True:
            try:
                part = source.recv(65536)
                if not part:
                    return
                if not (drops and dropping.is_set()):
                    sink.sendall(part)
            except OSError:
                return

    def connect():
        near = relay.accept()[0]
        far = socket.create_connection(("127.0.0.1", server.port))
        for words in ((near, far, False), (far, near, True)):
            threading.Thread(target=carry, args=words, daemon=True).start()

    threading.Thread(target=connect, daemon=True).start()
    process = client(it, [relay.getsockname()[1]], WRITES, "--trigger-file=trigger", "--trigger-remote=touch executed")
    wait(lambda: server.folder.read("log").count(b"done ") >= 10)
    time.sleep(0.3)
    dropping.set()
    it.write("trigger", "")
    executed = wait(lambda: os.path.exists(f"{server.folder.path}/executed"), 5)
    time.sleep(1)
    yield f"the command was {'' if executed else 'not '}executed, {len(it.states())} states at the client", None
    it.kill()
    process.wait()
    server.stop()


def second_trigger(it):
    """A second trigger comes while writes hang; between the two, one of them ends."""
    text = WRITES + "iodepth=3\n"
    it.write("job.fio", text)
    words = ["--trigger-file=trigger", "--trigger=echo >> executed", "job.fio"]
    process = it.start([it.fio, *words], "log", **it.held(HELD="5,8,20"))
    wait(lambda: it.read("log").count(b"done ") >= 18)
    time.sleep(0.3)
    it.write("executed", "")
    states = []
    for executed in (1, 2):
        it.write("trigger", "")
        wait(lambda: len(it.read("executed")) >= executed, 5)
        time.sleep(0.3)
        states.append(it.read(it.states()[0]))
        it.write("release5", "")
        time.sleep(0.5)
    it.kill()
    process.wait()
    same = "the same" if states[0] == states[1] else "another"
    yield f"{same} state by the second, the command executed {len(it.read('executed'))} times", None


def late_writes(it):
    """Do writes begin once the state's file is opened? Eight runs."""
    text = WRITES.replace("libaio", "psync") + "time_based\nruntime=20\n"
    late = 0
    for run in range(8):
        at = it.sub(str(run))
        at.write("job.fio", text)
        process = at.start([at.fio, "--trigger-file=trigger", "--trigger=true", "job.fio"], "log", LD_PRELOAD=f"{at.shims}/late.so", LATE=f"{at.path}/page")
        wait(lambda: os.path.exists(at.data))
        time.sleep(0.2)
        at.write("trigger", "")
        wait(at.states)
        process.wait(30)
        late += struct.unpack_from("<q", at.read("page"), 8)[0] > 0
    yield f"(in {late} of 8 runs a write began behind the state's taking)", None


CASES = {
    "lost-state": lost_state,
    "one-address": one_address,
    "dropped-replies": dropped_replies,
    "second-trigger": second_trigger,
    "late-writes": late_writes,
}
