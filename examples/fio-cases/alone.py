"""The cases of one machine. Each gives the rows that it comes to: what was asked, and what fio
answered."""
import time

from tried import BLOCK, wait

HELD = "[global]\nioengine=libaio\nbs=4k\nsize=80k\nverify=crc32c\nfilename=data\n[a]\nrw={}\n"
PLAIN = "[global]\nioengine=psync\nbs=4k\nsize=64k\nverify={}\nfilename=data\n[a]\nrw={}\n"
LOAD = "verify_state_load=1\n"
ONE = "[a]\nioengine=libaio\nbs=4k\nsize=4k\nio_size=8k\nverify=crc32c\nfilename=data\nnorandommap\nrw=randwrite\niodepth=2\n"


def plain(rw, more="", verify="crc32c"):
    return PLAIN.format(verify, rw) + ("do_verify=0\n" if "write" in rw else LOAD) + more


def first_in_flight(it):
    """Depth 2: write 0 is in flight, writes 1 to 19 are done."""
    it.write("data", bytes(20 * BLOCK))
    it.cut(HELD.format("write") + "iodepth=2\ndo_verify=0\n", 19, HELD="0", BELOW="20")
    check = HELD.format("read").replace("libaio", "psync") + LOAD
    yield "sound", it.run(check)
    done = it.written()
    it.zero(*done[-2:])
    yield f"two of {len(done)} done blocks zeroed", it.run(check)


def out_of_order(it):
    """Depth 3: twelve writes are done, in the order 0 to 6, 9, 8, 7, 10, 11."""
    text = HELD.replace("80k", "48k")
    it.write("data", bytes(12 * BLOCK))
    it.run(text.format("write") + "iodepth=3\ndo_verify=0\n", **it.held(ORDER="6,9,8,7,10,11"))
    it.zero(9, 10, 11)
    yield "blocks 9 to 11 zeroed", it.run(text.format("read").replace("libaio", "psync") + LOAD)
    yield "the same, checked at depth 3", it.run(text.format("read") + "iodepth=3\n" + LOAD)


def reordered_block(it):
    """One block, norandommap, depth 2, verified by the run that writes."""
    yield "sound, the later write done first", it.run(ONE, **it.held(ORDER="1,0"))
    yield "the later write told as done, and lost", it.sub("lost").run(ONE, **it.held(LIES="1"))


def earlier_run(it):
    """The same job is run twice."""
    for verify in ("crc32c", "meta"):
        it.run(plain("write", verify=verify))
        old = it.read("data")
        time.sleep(1.1)
        it.run(plain("write", verify=verify))
        if it.read("data") == old:
            yield f"{verify}: both runs write the same bytes", None
        it.write("data", old)
        yield f"{verify}: the bytes of the first put back", it.run(plain("read", verify=verify))


def set_back(it):
    """norandommap, 64 writes to 16 blocks; the file is set back to what it held behind some of them."""
    text, more = plain, "io_size=256k\nnorandommap\n"
    for behind, older in ((32, False), (40, False), (48, False), (32, True)):
        at = it.sub(f"{behind}-{older}")
        if older:
            at.run(text("randwrite", more))
        before = at.read("data") if older else bytes(16 * BLOCK)
        at.write("data", before)
        at.run(text("randwrite", more + f"number_ios={behind}\nverify_state_save=0\n"))
        half = at.read("data")
        at.write("data", before)
        at.run(text("randwrite", more))
        at.write("data", half)
        yield f"set back to write {behind}{', over an older run' * older}", at.run(text("randread", more))


def other_run(it):
    """A state of run A; run B was killed behind two writes, before it saved one."""
    it.run(plain("write"))
    it.write("data", b"")
    it.write("b.fio", plain("write").replace("psync", "libaio"))
    process = it.start([it.fio, "b.fio"], "log", **it.held(BELOW="2"))
    wait(lambda: it.read("log").count(b"done ") >= 2)
    it.kill()
    process.wait()
    yield "sound, run B checked", it.run(plain("read"))


def other_job(it):
    """The reading job isn't the one that wrote."""
    it.run(plain("randwrite"))
    whole = it.read("data")
    asked = {
        "rw=read": plain("read"),
        "randseed=9": plain("randread", "randseed=9\n"),
        "randrepeat=0, randseed=9": plain("randread", "randrepeat=0\nrandseed=9\n"),
        "size=128k": plain("randread").replace("64k", "128k"),
    }
    for name, text in asked.items():
        it.write("data", whole)
        ended = it.run(text)
        yield name + (": the file is laid out anew" if it.read("data") != whole else ""), ended


def other_bytes(it):
    """A state whose bytes changed, and one that is lost."""
    it.run(plain("write"))
    name = it.states()[0]
    good = it.read(name)
    flipped = bytearray(good)
    flipped[60] ^= 1
    for what, state in (("a byte more", good + b"x"), ("a byte less", good[:-1]), ("a bit flipped", bytes(flipped)), ("empty", b"")):
        it.write(name, state)
        yield what, it.run(plain("read"))


def all_faults(it):
    """Three blocks are faulty, verify_fatal=0."""
    for more in ("", "continue_on_error=verify\n"):
        it.run(plain("write"))
        it.zero(3, 7, 12)
        ended = it.run(plain("read", "verify_fatal=0\n" + more))
        yield f"{more.strip() or 'as it stands'}: {ended.faults} told", ended


def laid_out_anew(it):
    """fallocate=none; the writing job was stopped behind 10 of 16 blocks; the same job reads."""
    it.run(plain("write", "fallocate=none\nnumber_ios=10\n"))
    before = it.read("data")
    ended = it.run(plain("read", "fallocate=none\n"))
    after = it.read("data")
    yield f"sound, file of {len(before):,} bytes" + (f", {len(after):,} behind the check" if before != after else ""), ended


def sha512(it):
    """verify=sha512: bytes 296 to 4007 of a block zeroed."""
    text = "[a]\nioengine=psync\nbs=4k\nsize=4k\nfilename=data\nverify=sha512\nverify_state_save=0\nrw={}\n"
    it.run(text.format("write") + "do_verify=0\n")
    block = it.bytes()
    block[296:4008] = bytes(4008 - 296)
    it.write("data", bytes(block))
    yield "bytes 296 to 4007 zeroed", it.run(text.format("read"))


def seed_alone(it):
    """randseed without randrepeat=0: is the order another one?"""
    orders = []
    for seed in ("", "randseed=1\n", "randseed=2\n"):
        it.run(plain("randwrite", seed + "number_ios=5\nverify_state_save=0\nfallocate=none\n"))
        orders.append(it.written())
        it.write("data", b"")
    same = orders[0] == orders[1] == orders[2]
    yield f"three orders, {'all the same' if same else 'not all the same'}", None


CASES = {
    "first-in-flight": first_in_flight,
    "out-of-order": out_of_order,
    "reordered-block": reordered_block,
    "earlier-run": earlier_run,
    "set-back": set_back,
    "other-run": other_run,
    "other-job": other_job,
    "other-bytes": other_bytes,
    "all-faults": all_faults,
    "laid-out-anew": laid_out_anew,
    "sha512": sha512,
    "seed-alone": seed_alone,
}
