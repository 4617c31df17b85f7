"""The address book of a fleet, in TOML: what the options of the command line say, once for all."""
from note import Refused

BOOK = """\
# The servers of this fleet, in the order of their numbers: each a command whose input and output
# are the link to it.
servers = [
    "ssh -o BatchMode=yes root@a fleet-server link --note server.note",
    "ssh -o BatchMode=yes root@b fleet-server link --note server.note",
]

# The file of the client's note. It keeps the states: not on a drive that is tested.
note = "client.note"

# The link to a mirror, where there is one: it keeps a copy of each state on another machine.
# mirror = "ssh -o BatchMode=yes root@m fleet mirror --note mirror.note"

# The folder of the ledgers, where checks go by them: they ask for what an earlier check found sound, too.
# ledger = "ledgers"

# The commands that switch the servers' power.
cut = "./relay off"
off = "./relay off"
on = "./relay on"
"""


# What a book may say, the option of each, and of what kind it is.
KEYS = {"servers": ("server", list), "note": ("note", str), "mirror": ("mirror", str), "ledger": ("ledger", str), "cut": ("cut", str), "off": ("off", str), "on": ("on", str)}
MOST_SERVERS = 8


def book_in(path):
    """Returns what a book says, where each word of it is known, and of its kind."""
    import tomllib # (since Python 3.11; who has none says all by options)

    try:
        with open(path, "rb") as it:
            book = tomllib.load(it)
    except (tomllib.TOMLDecodeError, UnicodeDecodeError) as error:
        raise Refused(f"{path}: {error}") from None
    for key, said in book.items():
        if key not in KEYS:
            raise Refused(f"{path}: {key}: there is no such word; there are {', '.join(KEYS)}")
        if not isinstance(said, KEYS[key][1]) or (key == "servers" and not all(isinstance(it, str) for it in said)):
            raise Refused(f"{path}: {key}: this wants {'a list of commands' if key == 'servers' else 'a text'}")
    return book


def read_book(of):
    """Fills in what the command line doesn't say."""
    try:
        book = book_in(of.book) if of.book else {}
    except ImportError:
        raise Refused(f"{of.book}: an address book wants Python 3.11; options say the same") from None
    for key, (name, _) in KEYS.items():
        if hasattr(of, name) and getattr(of, name) is None:
            setattr(of, name, book.get(key))
    for name, option in (("server", "--server"), ("note", "--note")):
        if not getattr(of, name) and (name, of.command) != ("server", "states"):
            raise Refused(f"{option} has to be said, or an address book that has it")
    if len(of.server or ()) > MOST_SERVERS:
        raise Refused(f"--server: a fleet has {MOST_SERVERS} servers at most, and here are {len(of.server)}")
    if of.command == "cycle" and not (of.off and of.on):
        raise Refused("--off and --on have to be said, or an address book that has them")
