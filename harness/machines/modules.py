"""The modules of a kernel of Debian that is unpacked in a folder, each behind those that it wants."""
import glob
import os
import re


def file_of(kernel, name):
    """Returns the path of a module, by its name with - or _; None where the kernel has it built in."""
    pattern = re.sub("[-_]", "[-_]", name)
    found = glob.glob(f"{kernel}/lib/modules/**/{pattern}.ko", recursive=True)
    return found[0] if found else None


def wanted_by(path):
    """Returns the names of the modules that a module says it depends on."""
    with open(path, "rb") as it:
        found = re.search(rb"\0depends=([^\0]*)\0", it.read())
    return [name for name in found[1].decode().split(",") if name] if found else []


def in_order(kernel, names):
    """Returns the paths of these modules and of all that they want, each once, and behind what it wants.
    One that isn't there is built in, or missing: the machine says so."""
    paths = []

    def add(name):
        path = file_of(kernel, name)
        if path and path not in paths:
            for wanted in wanted_by(path):
                add(wanted)
            paths.append(path)

    for name in names:
        add(name)
    return paths


def version_of(kernel):
    """Returns the version of the kernel."""
    return os.path.basename(glob.glob(f"{kernel}/boot/vmlinuz-*")[0]).partition("-")[2]
