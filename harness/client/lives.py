"""The lives of a fleet's client: how one begins, and how a new fleet does where the note is full."""
import struct
import time

from fleet import Fleet
from note import KeptNote, Refused, drawn_fleet, first_note, numbers_of
from runs import Runs
from say import say


def begin_life(of, run=0):
    """Starts the client; with a mirror, once all that this keeps has come to it."""
    until, had = time.monotonic() + of.wait, set()
    while True:
        fleet = Fleet(of.note, of.server, run, of.mirror, of.wait)
        if fleet.has_copies(max(0, until - time.monotonic()), had):
            return fleet
        fleet.close()
        had = fleet.copies_had()
        if time.monotonic() > until:
            raise Refused(fleet.mirror.refusal or "the mirror doesn't answer, or a later client has begun, or copies are lost again and again")
        say("copies of the mirror were lost: the client begins anew")


def begin_with_room(of):
    """Starts the client for another run. Where its note may have no room for the states of that, a new
    fleet begins: not before the mirror has granted the old one numbers, since a client that a later one
    has shut out puts nothing aside."""
    fleet = begin_life(of)
    if fleet.has_room():
        return fleet
    fleet.close()
    begin_new_fleet(of.note)
    return begin_life(of)


def begin_new_fleet(path):
    """Has a new fleet take the place of the one whose client's note is full. Its client begins behind the
    runs and attempts of the old one; or with a mirror over no note, in a generation above: the mirror and
    the servers then put their notes aside, too, as this client comes to them."""
    kept = KeptNote(path)
    generation, runs, attempts = struct.unpack(">QQQ", kept.read()[4:28])
    fleet, note = drawn_fleet(), b"" if generation else first_note(max(runs, attempts))
    if note:
        Runs(path).follow(fleet, kept.fleet, runs, numbers_of(note)[1])
    place = kept.put_aside(fleet, note, generation)
    kept.close()
    say(f"{path}: it has no room for another run: its states are in {place}, and a new fleet begins" + (", as do the mirror's note and the servers'" if generation else ""))
