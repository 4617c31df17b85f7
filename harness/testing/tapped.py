"""A link between two harnesses of a fleet that writes down what goes over it: tapped.py FILE
COMMAND. For each frame, in both directions, FILE has a line: `there` or `back`, and its bytes in
hexadecimal. What the harnesses ask each other besides isn't written down. Frames of the kinds that
DROPS has, as 19,20, don't come back."""
import os
import subprocess
import sys
import threading

HERE = os.path.dirname(os.path.realpath(__file__))
sys.dont_write_bytecode = True
sys.path.insert(0, f"{HERE}/../client")

from records import enveloped, read_frame


def main(file, command):
    link = subprocess.Popen(command, shell=True, stdin=subprocess.PIPE, stdout=subprocess.PIPE)
    log, lock = open(file, "a", encoding="ascii", buffering=1), threading.Lock()
    dropped = [int(it) for it in os.environ.get("DROPS", "").split(",") if it]

    def pass_on(way, stream, to):
        while frame := read_frame(stream):
            if frame[:2] == b"FC":
                with lock:
                    log.write(f"{way} {frame.hex()}\n")
            if frame[:2] == b"FC" and way == "back" and frame[3] in dropped:
                continue
            try:
                to.write(enveloped(frame))
                to.flush()
            except OSError:
                break
        os._exit(0)

    threading.Thread(target=pass_on, args=("there", sys.stdin.buffer, link.stdin), daemon=True).start()
    pass_on("back", link.stdout, sys.stdout.buffer)


if __name__ == "__main__":
    main(*sys.argv[1:])
