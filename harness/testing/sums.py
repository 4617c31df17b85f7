"""The sum of what goes over a link, CRC32C, and links that change bytes."""
import os
import shlex
import subprocess

from crc32c import crc32c
from trying import AGENT, BLOCK, HANG, HERE, report, tell, write
from witness import CHUNK, PASS_ON, WELCOME, endless, link, witness

COMMON = f"{os.path.dirname(HERE)}/common"
PROGRAM = r"""
#include "sum.h"
#include <stdio.h>
#include <unistd.h>
int main(void) {
    static unsigned char bytes[65536];
    ssize_t length = read(0, bytes, sizeof bytes);
    size_t all = length > 0 ? (size_t)length : 0, front = all / 3;
    printf("%08x %08x %08x\n", sum_over(0, bytes, all), sum_by_steps(0, bytes, all), sum_over(sum_by_steps(0, bytes, front), bytes + front, all - front));
    return 0;
}
"""
# Bytes whose sums RFC 3720 has, and the check value of the CRC catalogues.
PUBLISHED = [(bytes(32), 0x8A9136AA), (b"\xff" * 32, 0x62A8AB43), (bytes(range(32)), 0x46DD794E), (bytes(range(31, -1, -1)), 0x113FDB5C), (b"123456789", 0xE3069283)]


def sums():
    """Both ways to sum come to what is published, and to each other, over any length and in parts."""
    write("sums.c", PROGRAM)
    built = subprocess.run(["cc", "-O2", f"-I{COMMON}", "-o", "sums", "sums.c", f"{COMMON}/sum.c", "-pthread"]).returncode
    tell("the program is built", built, 0)
    said = lambda data: subprocess.run(["./sums"], input=data, stdout=subprocess.PIPE, text=False).stdout.decode().split()
    for data, due in PUBLISHED:
        tell(f"the sum of {data[:9]!r}", (said(data), crc32c(data)), ([f"{due:08x}"] * 3, due))
    tell("of each length", [length for length in range(40) if said(bytes(range(length))) != [f"{crc32c(bytes(range(length))):08x}"] * 3], [])


def changed_bytes():
    """A link that changes one bit: within a check it is tried again, and an order or a notice that came
    otherwise than it was sent is the cut. No drive is blamed."""
    tell("a run", witness("write", "two.fio", "cs", *link("ct"))[0], 0)
    for what, at in (("a welcome", 100), ("the head of a piece", WELCOME + 12), ("a block", WELCOME + CHUNK + 5 * BLOCK + 700)):
        once = f"[ -e once ] && exec {shlex.quote(AGENT)} ct; touch once; {link('ct', behind=f'| {PASS_ON} {at} flip')[1]}"
        tell(f"{what} of a check", witness("check", "two.fio", "cs", "--link", once, "--wait", str(HANG))[:2], (0, report([])))
        os.remove("once")
    endless()
    for what, way, said_of_it in (
        ("an order", {"before": f"{PASS_ON} 300700 flip |"}, "an order came otherwise than it was sent"),
        ("a notice", {"behind": f"| {PASS_ON} {WELCOME + 24 * 300 + 5} flip"}, "the link said what no agent says"),
    ):
        status, printed, said = witness("write", "endless.fio", "es", *link("et", **way), "--quiet", "10000")
        tell(f"{what}: the cut", (status, "at the cut" in printed, said_of_it in said), (0, True, True))
        status, printed, _ = witness("check", "endless.fio", "es", *link("et"))
        tell(f"{what}: no false fault", (status, "faults 0 end whole" in printed), (0, True))
