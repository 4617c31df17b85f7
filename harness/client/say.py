"""What the client's harness says on standard error."""
import sys


def say(text):
    print(f"fleet: {text}", file=sys.stderr, flush=True)
