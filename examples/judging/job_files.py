"""Reads a job file, and tells what each of its jobs does.

What the options mean, and what they come to where they aren't there, is as the table of
docs/COMING-FROM-FIO.md says. A text with a line that isn't known here, or with a job past the
limits of that page, isn't judged. What else that page refuses isn't looked for: no run has it.
"""

import re
from functools import lru_cache
from typing import NamedTuple

from judging.settings import IN_TURN, PATTERN, STAMP, WITH_A_MAP, WITHOUT_A_MAP, Settings
from judging.verdict import Unjudged


class Job(NamedTuple):
    """A job: its settings, whether a check of it asks for the stored state, and whether that ends
    at the first fault."""

    settings: Settings
    load: bool
    fatal: bool


SPELLINGS = {"readwrite": "rw", "blocksize": "bs"}
NUMBERS = ("bs", "size", "io_size", "number_ios", "iodepth", "x_window", "numjobs", "randseed")
SWITCHES = ("norandommap", "verify_fatal", "verify_state_save", "verify_state_load")
ACCESSES = ("read", "write", "randread", "randwrite")
CHECKSUMS = ("md5", "crc64", "crc32c", "crc32c-intel", "crc32", "crc16", "crc7", "xxhash",
             "sha512", "sha256", "sha1", "meta")
WITHOUT_EFFECT = ("filename", "ioengine", "direct", "thread", "group_reporting", "description",
                  "do_verify", "serialize_overlap")
UNITS = {"": 1, "k": 1024, "m": 1024 ** 2, "g": 1024 ** 3}


def read_number(value):
    """The number that a value says, decimal with a unit or hexadecimal with 0x, or None."""
    match = re.fullmatch("0x([0-9a-f]+)|([0-9]+)([kmg]?)b?", value.lower())
    if not match:
        return None
    hexadecimal, digits, unit = match.groups()
    number = int(hexadecimal, 16) if hexadecimal else int(digits) * UNITS[unit]
    return number if number < 2 ** 64 else None


def read_value(name, value):
    """What the value of an option says, or None where that isn't known here."""
    if name in NUMBERS:
        return read_number(value)
    if name in SWITCHES:
        return {"0": False, "1": True}.get(value)
    if name == "rw":
        return value if value in ACCESSES else None
    if name == "verify":
        return PATTERN if value == "pattern" else STAMP if value in CHECKSUMS else None
    if name == "verify_pattern":
        return int(value, 16) if re.fullmatch("0[xX][0-9a-fA-F]{1,2}", value) else None
    return value if name in WITHOUT_EFFECT else None


def read_option(line):
    """The name and the value of an option's line. A switch without a value is on."""
    name, equals, value = (part.strip(" \t") for part in line.partition("="))
    name = SPELLINGS.get(name, name)
    said = read_value(name, "1" if name in SWITCHES and not equals else value)
    if said is None:
        raise Unjudged(f"a job file with the line {line}")
    return name, said


def read_sections(text):
    """The options of each job's section, with those of the global sections above it."""
    above, sections, current = {}, [], None
    for line in text.split("\n"):
        line = line.removesuffix("\r").strip(" \t")
        if not line or line[0] in ";#":
            continue
        if line == "[global]":
            current = above
        elif re.fullmatch(r"\[[^][]{1,64}\]", line):
            current = dict(above)
            sections.append(current)
        elif current is None or line[0] == "[":
            raise Unjudged(f"a job file with the line {line} where it stands")
        else:
            name, value = read_option(line)
            current[name] = value
    return sections


def order_of(options):
    """In which order a job takes its blocks."""
    if not options.get("rw", "read").startswith("rand"):
        return IN_TURN
    return WITHOUT_A_MAP if options.get("norandommap") else WITH_A_MAP


def total_of(options, bs):
    """How many writes a job has; an io_size or a number_ios of 0 says nothing."""
    total = (options.get("io_size") or options.get("size", 0)) // bs
    return min(total, options.get("number_ios") or total)


def read_job(options, number):
    """The job that options make, as the one of this number in its text."""
    bs, depth = options.get("bs", 4096), options.get("iodepth", 1)
    if not 512 <= bs <= 65536 or bs % 512:
        raise Unjudged(f"a job file with bs={bs}")
    verify = options.get("verify", STAMP)
    if verify == PATTERN and "verify_pattern" not in options:
        raise Unjudged("a job file with verify=pattern, and no pattern")
    settings = Settings(
        order=order_of(options),
        verify=verify,
        pattern=options["verify_pattern"] if verify == PATTERN else 0,
        bs=bs,
        blocks=options.get("size", 0) // bs,
        total=total_of(options, bs),
        seed=(options.get("randseed", 1) + number) % 2 ** 64,
        depth=depth,
        window=options.get("x_window", depth),
    )
    if not is_within_limits(settings):
        raise Unjudged(f"a job file with a job past the limits: {settings}")
    load, fatal = (options.get(name, False) for name in ("verify_state_load", "verify_fatal"))
    return Job(settings, load, fatal)


def is_within_limits(settings):
    """The blocks, the writes, the depth and the window are as many as a job may have."""
    return (1 <= settings.blocks <= 65536 and 1 <= settings.total <= 1000000
            and 1 <= settings.depth <= 64 and settings.depth <= settings.window <= 256)


@lru_cache(maxsize=None)
def read_jobs(text):
    """The jobs of a job file, the copies of each in a row."""
    jobs = []
    for options in read_sections(text):
        for _ in range(options.get("numjobs", 1)):
            jobs.append(read_job(options, len(jobs)))
    return jobs


def job_in(text, number):
    """The job of this number in a job file, or None."""
    jobs = read_jobs(text)
    return jobs[number] if number < len(jobs) else None
