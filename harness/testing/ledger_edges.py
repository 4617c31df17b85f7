"""What `drive ledger`, `ledger-lost` and `ledger-rest` answer to inputs that end early or are wrong,
and to words that ask for something else: by the protocol, and as `drive map` does."""
import hashlib
import os
import re
import struct
import subprocess

from ledger_examples import SIZE, behind_length, text_of, write_run
from trying import tell

COMMANDS = ("ledger", "ledger-lost", "ledger-rest")
BLOCKS = 8
NOTHING = b"unchecked 0-7\nreport checked 0 faults 0 end whole first -\n"
REFUSED = re.compile(rb"refused 1\d\d [A-Z]\w+\n")


def ran(word, *words, data=b""):
    it = subprocess.run([os.environ["DRIVE"], word, *words], input=data, stdout=subprocess.PIPE)
    return it.returncode, it.stdout


def bare_ledger(size=SIZE, blocks=BLOCKS):
    """The bytes of a ledger that asks for nothing."""
    body = struct.pack(">4Q", 0x4643_4C45_4447_5231, size, blocks, 0) + bytes(8 * blocks)
    return body + hashlib.sha1(body).digest()


def front(word, text, state, ledger):
    return behind_length(text) + (behind_length(state) if word == "ledger" else b"") + behind_length(ledger)


def content(disk):
    return b"".join(b"\1" + data for data in disk)


def ledger_of_nothing():
    """A ledger that asks for nothing, of no bytes or spelled; what stands behind the last block is left."""
    disk, bare = [bytes(SIZE)] * BLOCKS, bare_ledger()
    due = 0, NOTHING + f"ledger {len(bare)}\n".encode() + bare
    for word in COMMANDS[1:]:
        for what, ledger in (("no bytes", b""), ("a bare one", bare)):
            data = front(word, text_of(BLOCKS), b"", ledger) + content(disk)
            tell(f"{word}, {what}", ran(word, "5", "0", data=data), due)
            tell(f"{word}, {what}, and bytes behind the last block", ran(word, "5", "0", data=data + b"\2"), due)
            unread = front(word, text_of(BLOCKS), b"", ledger) + bytes(BLOCKS)
            tell(f"{word}, {what}, and no block is read", ran(word, "5", "0", data=unread), due)


def ledger_inputs_cut():
    """An input that ends before the blocks is refused; in a block it is told in which."""
    disk = [bytes(SIZE)] * BLOCKS
    state = write_run(5, disk, BLOCKS).state
    for word in COMMANDS:
        head = front(word, text_of(BLOCKS), state, bare_ledger())
        fronts = {ran(word, "5", "0", data=head[:end]) for end in range(len(head))}
        tell(f"{word}, each front of what stands before the blocks", fronts, {(2, b"refused 95 EndOfInput\n")})
        huge = head[: -len(bare_ledger()) - 4] + b"\xff\xff\xff\xff" + bare_ledger()
        tell(f"{word}, a ledger that is shorter than its length says", ran(word, "5", "0", data=huge), (2, b"refused 95 EndOfInput\n"))
        checked = 3 if word == "ledger" else 0
        unchecked = b"unchecked\n" if word == "ledger" else b"unchecked 0-7\n"
        report = unchecked + f"report checked {checked} faults 0 end read 3 first -\n".encode()
        for what, part in (("before a block", b""), ("behind its first byte", b"\1"), ("in a block", b"\1" + disk[3][:-1])):
            tell(f"{word}, an input that ends {what}", ran(word, "5", "0", data=head + content(disk[:3]) + part), (2, report))
        tell(f"{word}, a byte that is neither", ran(word, "5", "0", data=head + content(disk[:3]) + b"\2"), (2, b"refused 94 BadNotice\n"))


def ledgers_that_are_none():
    """Bytes that are no ledger, or one of another place, are refused with a number from 100 on."""
    disk, bare = [bytes(SIZE)] * BLOCKS, bare_ledger()
    state = write_run(5, disk, BLOCKS).state
    other = struct.pack(">4Q", 0x4643_4C45_4447_5232, SIZE, BLOCKS, 0) + bytes(8 * BLOCKS)
    none = {
        "a part of one": bare[:-1], "one with a byte behind it": bare + b"\0", "one byte": b"\0", "a digest alone": hashlib.sha1(b"").digest(),
        "another magic": other + hashlib.sha1(other).digest(), "larger blocks": bare_ledger(size=2 * SIZE),
        "more blocks": bare_ledger(blocks=BLOCKS + 1), "fewer blocks": bare_ledger(blocks=BLOCKS - 1), "blocks of no size": bare_ledger(size=0),
    }
    for word in COMMANDS:
        for what, ledger in none.items():
            status, printed = ran(word, "5", "0", data=front(word, text_of(BLOCKS), state, ledger) + content(disk))
            tell(f"{word}, {what}", (status, bool(REFUSED.fullmatch(printed))), (2, True))


def ledger_words():
    """Words that no command has, and inputs that a map refuses, too."""
    disk = [bytes(SIZE)] * BLOCKS
    state, bare = write_run(5, disk, BLOCKS).state, bare_ledger()
    for word in COMMANDS:
        data = front(word, text_of(BLOCKS), state, bare) + content(disk)
        for words in ((), ("5",), ("0", "0"), ("5", "16"), ("5", "0", "--server", "8"), ("5", "0", "--server"), ("5", "0", "--unit", "512"), ("5", "0", "0"), ("05x", "0")):
            tell(f"{word} {' '.join(words)}", ran(word, *words, data=data), (2, b"bad command\n"))
        tell(f"{word} of a job that isn't there", ran(word, "5", "1", data=data), (2, b"refused 96 NoJob\n"))
        bad = front(word, b"[a]\nnope=1\n", state, bare) + content(disk)
        tell(f"{word} of a text that is refused", ran(word, "5", "0", data=bad), (2, b"refused 4 UnknownOption 2\n"))
        reading = front(word, text_of(BLOCKS).replace(b"randwrite", b"randread"), state, bare) + content(disk)
        tell(f"{word} of the text that reads", ran(word, "5", "0", data=reading), ran(word, "5", "0", data=data))
        silent = front(word, text_of(BLOCKS).replace(b"rw=randwrite\n", b""), b"", bare) + content(disk)
        in_turn = front(word, text_of(BLOCKS).replace(b"randwrite", b"read"), b"", bare) + content(disk)
        tell(f"{word} of a text that says no order", ran(word, "5", "0", data=silent), ran(word, "5", "0", data=in_turn))
    data = front("ledger", text_of(BLOCKS), state, bare) + content(disk)
    tell("a state of another run", ran("ledger", "6", "0", data=data), (2, b"refused 36 OtherKey\n"))
    tell("a state of another server", ran("ledger", "5", "0", "--server", "1", data=data), (2, b"refused 36 OtherKey\n"))
    other = front("ledger", text_of(BLOCKS) + b"randseed=7\n", state, bare) + content(disk)
    tell("a state of another job", ran("ledger", "5", "0", data=other), (2, b"refused 37 OtherJob\n"))
    short = front("ledger", text_of(BLOCKS), state[:99], bare) + content(disk)
    tell("a part of a state", ran("ledger", "5", "0", data=short), (2, b"refused 30 Short\n"))
    first = front("ledger", text_of(BLOCKS), b"", b"") + content(disk)
    tell("a full pass and no ledger", ran("ledger", "5", "0", data=first), ran("ledger", "5", "0", data=data))
