"""What is built, and of which sources: known by sums, and never by times. Beside a program that is
built stands its provenance, the file `built`, whose lines are words and what they tell:

    program SUM    the SHA-256 of the program
    sources SUM    that of its sources: of what `sha256sum` prints of all their files, in their order
    made HOW       `here KIT`, proved on this machine, or `release VERSION`, linked of its object
    commit ID      the commit that was checked out, and whether there were changes
    of PATH        a file or folder of its sources, below the top; a line for each

So a program that is copied with that file stays what it is, and so does one beside which the sources
were changed and changed back. ../fiocut reads it, too."""
import hashlib
import os
import subprocess

TOP = os.path.dirname(os.path.dirname(os.path.realpath(__file__)))
PARTS = ("src", "specs", "proofs")


def folder_of(crate):
    """Returns where a crate stands, below the top."""
    return crate if crate == "bench" else f"crates/{crate}"


def lines_of_list():
    """Returns the libraries that each crate of crates.txt uses, by its name, and those of bench."""
    told = []
    for file in ("crates.txt", "bench/libraries.txt"):
        with open(f"{TOP}/{file}", encoding="utf-8") as lines:
            told += [line.partition("#")[0].partition(":") for line in lines]
    return {head.split()[0]: used.split() for head, mark, used in told if mark}


def used_crates(programs):
    """Returns the libraries that each crate of these programs uses, each behind its own."""
    listed, found = lines_of_list(), {}

    def visit(crate):
        if crate in listed and crate not in found:
            for it in listed[crate]:
                visit(it)
            found[crate] = listed[crate]

    for it in programs:
        visit(it)
    return found


def sources(programs):
    """Returns the paths that programs are made of, below the top."""
    crates = used_crates(programs)
    folders = [f"{folder_of(crate)}/{part}" for crate in crates for part in PARTS]
    lists = ["crates.txt", *(["bench/libraries.txt"] if "bench" in crates else [])]
    return lists + [it for it in folders if os.path.isdir(f"{TOP}/{it}")]


def sum_of(path):
    """Returns the SHA-256 of a file."""
    with open(path, "rb") as it:
        return hashlib.sha256(it.read()).hexdigest()


def sum_of_sources(paths):
    """Returns the sum of all files at and below these paths, or None where one isn't there."""
    files = []
    for it in paths:
        if os.path.isfile(f"{TOP}/{it}"):
            files.append(it)
        elif os.path.isdir(f"{TOP}/{it}"):
            files += [os.path.relpath(f"{at}/{name}", TOP) for at, _, names in os.walk(f"{TOP}/{it}") for name in names]
        else:
            return None
    listing = "".join(f"{sum_of(f'{TOP}/{it}')}  {it}\n" for it in sorted(files, key=os.fsencode))
    return hashlib.sha256(listing.encode()).hexdigest()


def commit():
    """Returns the commit that is checked out, and whether there are changes."""
    told = [subprocess.run(["git", "-C", TOP, *words], stdout=subprocess.PIPE, stderr=subprocess.DEVNULL, text=True)
            for words in (["rev-parse", "HEAD"], ["status", "--porcelain"])]
    return "not known" if told[0].returncode else told[0].stdout.strip() + (", and changes" if told[1].stdout else "")


def program_at(program):
    """Returns where a program stands once it is built."""
    return f"{TOP}/{folder_of(program)}/out/{program}"


def provenance_of(program):
    """Returns what a program's provenance tells, by its words: of `of` a list. There may be none."""
    told, path = {"of": []}, f"{TOP}/{folder_of(program)}/out/built"
    if os.path.isfile(path):
        with open(path, encoding="utf-8") as it:
            for word, _, text in (line.rstrip("\n").partition(" ") for line in it):
                told[word] = [*told["of"], text] if word == "of" else text
    return told


def is_current(program, made=""):
    """Returns whether a program is built, is made of the sources as they are now, and in this way."""
    path, told = program_at(program), provenance_of(program)
    if not os.access(path, os.X_OK) or not told["of"] or not told.get("made", "").startswith(made):
        return False
    return told.get("program") == sum_of(path) and told.get("sources") == sum_of_sources(told["of"])


def write_whole(path, data):
    """Writes a file at once: it is there whole, or as it was."""
    apart = f"{path}.{os.getpid()}.new"
    with open(apart, "wb") as it:
        it.write(data)
    os.replace(apart, path)


def put(program, made, how, of, sum, commit_of):
    """Puts a program that was made in its place, with its provenance: how it was made, of which paths,
    the sum that these had, and of which commit."""
    path = program_at(program)
    os.makedirs(os.path.dirname(path), exist_ok=True)
    with open(made, "rb") as it:
        data = it.read()
    apart = f"{path}.{os.getpid()}.new"
    with open(apart, "wb") as it:
        it.write(data)
    os.chmod(apart, 0o755)
    lines = [f"program {hashlib.sha256(data).hexdigest()}", f"sources {sum}", f"made {how}", f"commit {commit_of}", *(f"of {it}" for it in of)]
    # (between the two what is told is of another program, and so of none)
    os.replace(apart, path)
    write_whole(f"{os.path.dirname(path)}/built", "".join(f"{it}\n" for it in lines).encode())
