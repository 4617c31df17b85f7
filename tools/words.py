"""What each command here answers alike: --help, --version, and a word that it doesn't take."""
import os
import sys

TOP = os.path.dirname(os.path.dirname(os.path.realpath(__file__)))


def version():
    """Returns the version of fiocut that the commands here are of."""
    with open(f"{TOP}/VERSION", encoding="utf-8") as it:
        return it.read().strip()


def name():
    """Returns what the command is called: by its path below the top, or by its link elsewhere."""
    path, called = os.path.realpath(sys.argv[0]), os.path.basename(sys.argv[0])
    return os.path.relpath(path, TOP) if os.path.basename(path) == called else called


def said_version():
    """Returns what --version says: no proof covers what calls this."""
    return f"{name()} of fiocut {version()}, not proved"


def refuse(doc, word, why):
    """Says which word is wrong, and how the command is called, and ends it with status 2."""
    print(f"{name()}: {word}: {why}\n\n{doc.strip()}", file=sys.stderr)
    sys.exit(2)


def answer(doc, words, takes=lambda it: True):
    """Answers --help, by the text that stands above the command, and --version, wherever they stand
    among the words, and refuses the first word that the command doesn't take. Then it has ended."""
    for it in words:
        if it in ("-h", "--help"):
            print(f"{name()}: {doc.strip()}")
            sys.exit(0)
        if it == "--version":
            print(said_version())
            sys.exit(0)
    for it in words:
        if not takes(it):
            refuse(doc, it, "there is no such option" if it.startswith("-") else "this word isn't taken")


def jobs_of(doc, words, own):
    """Returns the number behind --jobs, or the own one, and the words without these two."""
    if "--jobs" not in words:
        return own, words
    at = words.index("--jobs")
    behind = words[at + 1 : at + 2]
    if not behind or not behind[0].isdigit() or int(behind[0]) == 0:
        refuse(doc, " ".join(["--jobs", *behind]), "this wants a number of proofs, from 1 on")
    return int(behind[0]), words[:at] + words[at + 2 :]


def refuse_strange(parser, words):
    """Refuses the first option that a parser of argparse hasn't got, before anything else."""
    for it in words:
        option = it.partition("=")[0]
        if option.startswith("--") and not any(known.startswith(option) for known in parser._option_string_actions):
            parser.error(f"{it}: there is no such option; --help lists them")
