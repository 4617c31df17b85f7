"""Passes so many bytes of its input on, each as it comes, and then ends; with `silent` it goes on
and passes nothing, with `noise` other bytes, with `lie` a notice of a write that nobody ordered.
With `flip` it changes a bit of the next byte, and goes on as before."""
import os
import struct
import sys

sys.dont_write_bytecode = True

from crc32c import crc32c

left, then = int(sys.argv[1]), sys.argv[2] if len(sys.argv) > 2 else ""
while left:
    bytes_ = os.read(0, min(left, 65536))
    if not bytes_:
        sys.exit()
    os.write(1, bytes_)
    left -= len(bytes_)
if then == "noise":
    os.write(1, os.urandom(999))
if then == "lie":
    notice = struct.pack(">QQ", 1 << 56, 1 << 40)
    os.write(1, notice + struct.pack(">II", crc32c(notice), 0))
if then == "flip":
    os.write(1, bytes([os.read(0, 1)[0] ^ 4]))
    while bytes_ := os.read(0, 65536):
        while bytes_:
            bytes_ = bytes_[os.write(1, bytes_) :]
while then and os.read(0, 65536):
    pass
