"""The file of a tour's tiles, read by itself: its records, and what they come to; and bytes of tiles that
a cut takes away, which a test has it do."""
import json
import struct
import sys

from crc32c import crc32c

BEGUN, ENDED, CHECKED, LOST = range(1, 5)
MORE = {ENDED: 136, CHECKED: 48}


def records(data):
    """The records of a file, each as its kind, tile, cycle, run and what stands behind these; and how many
    bytes are behind the last one that is whole. A wrong sum raises ValueError."""
    at, total, found = 8, 0, []
    if data[:8] != b"FCTILES1":
        raise ValueError("no tiles")
    while at + 36 <= len(data):
        kind, tile, cycle, run = struct.unpack(">4Q", data[at : at + 32])
        end = at + 32 + MORE.get(kind, 0)
        if end + 4 > len(data):
            break
        total = crc32c(data[at:end], total)
        if struct.unpack(">I", data[end : end + 4])[0] != total:
            raise ValueError(f"a wrong sum at {at}")
        found.append((kind, tile, cycle, run, data[at + 32 : end]))
        at = end + 4
    return found, len(data) - at


def counted(state):
    """How many writes a state counts as issued, and which of them as done."""
    issued = struct.unpack(">Q", state[56:64])[0]
    floor, *words = struct.unpack(">5Q", state[96:136])
    return issued, set(range(floor)) | {floor + at for at in range(256) if words[at // 64] >> at % 64 & 1}


def tiles_in(path):
    """What is known of each tile by its records: of its last run."""
    tiles = {}
    with open(path, "rb") as it:
        found, _ = records(it.read())
    for kind, tile, cycle, run, more in found:
        its = tiles.setdefault(tile, {"runs": [], "checks": [], "states": {}})
        if kind == BEGUN:
            its["runs"].append(run)
            its.update(state=None, cycle=cycle, checked=0)
        elif kind == ENDED:
            its.update(state=more, checked=0, asked=0)
            its["states"][run] = more
        elif kind == CHECKED:
            asked, *found, is_behind_cut = struct.unpack(">6Q", more)
            its.update(checked=cycle, asked=max(its["asked"], asked), cut=is_behind_cut)
            its["checks"].append((cycle, asked, *found))
        else:
            its.update(state=None, lost=True)
    return tiles


def stamp_in(block):
    """The run, the write and the block that the first sector of a block says; None of zeros."""
    run, _, _, write, number = struct.unpack(">QIIQQ", block[:32])
    return (run, write, number) if run else None


def harm(target, folder, blocks, size, kind, count):
    """Takes bytes of tiles away, as a drive that forgets does, and prints what they were."""
    tiles = tiles_in(f"{folder}/tiles")
    with open(target, "r+b") as it:
        def at(tile, block):
            it.seek((tile * blocks + block) * size)
            return it.read(size)

        def put(tile, block, bytes_):
            it.seek((tile * blocks + block) * size)
            it.write(bytes_)

        resting = [tile for tile, its in sorted(tiles.items()) if its["checked"]]
        written = [tile for tile, its in sorted(tiles.items()) if not its["checked"]]
        if kind == "astray" and len(resting) > 1:
            put(resting[0], 5, at(resting[1], 5))
            print(json.dumps({"kind": kind, "tile": resting[0], "from": resting[1], "block": 5}))
        for tile in {"rest": resting, "flight": written, "older": written, "older-rest": resting}.get(kind, []):
            there = [(number, stamp_in(at(tile, number))) for number in range(blocks)]
            for number, stamp in [it for it in there if it[1] and (it[1][0] == tiles[tile]["runs"][-1]) == (not kind.startswith("older"))][:count]:
                put(tile, number, bytes(size))
                print(json.dumps({"kind": kind, "tile": tile, "block": number, "run": stamp[0], "write": stamp[1]}))


if __name__ == "__main__":
    harm(sys.argv[1], sys.argv[2], int(sys.argv[3]), int(sys.argv[4]), sys.argv[5], int(sys.argv[6]))
