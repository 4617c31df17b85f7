"""Files of the client's that begin with what they are, and a checksum of the rest: harness/common/sealed.h
has the same of the other programs, with another sum."""
import zlib

from note import Refused, keep_file


def spelled(what, rest):
    return f"{what}\nsum {zlib.crc32(rest):08x}\n".encode() + rest


def keep_sealed(path, what, rest):
    """Keeps it whole, and on the disk."""
    keep_file(path, spelled(what, rest))


def read_sealed(path, what):
    """Returns what stands behind the sum, or None where there is no file."""
    try:
        with open(path, "rb") as it:
            data = it.read()
    except FileNotFoundError:
        return None
    rest = data[len(spelled(what, b"")) :]
    if not data.startswith(f"{what}\n".encode()):
        raise Refused(f"{path}: it is no file of this kind: {what}")
    if data != spelled(what, rest):
        raise Refused(f"{path}: its bytes aren't those that were kept")
    return rest
