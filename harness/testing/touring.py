"""What a tour of a virtual machine's disk has to come to, for harness/vm: by the lines of its cycles, and
by the records of its tiles, which are read by themselves."""
from tour_records import tiles_in
from trying import BLOCK


def parts_of(count, power):
    return f"{count // power}.{count % power * 10 // power}" if power > 1 else str(count)


def covered_of(count, most):
    """So many bytes of so many, as the witness spells them: the first has a unit of its own where it is
    less than a tenth of the other one's."""
    powers = [(10**9, "GB"), (10**6, "MB"), (10**3, "kB"), (1, "bytes")]
    (all_power, all_unit), (power, unit) = (next(it for it in powers if it[0] <= max(number, 1)) for number in (most, count))
    covered = parts_of(count, all_power) if count >= all_power // 10 else f"{parts_of(count, power)} {unit}"
    return f"covered {covered} of {parts_of(most, all_power)} {all_unit}"


def last_line(folder, lines, disk_bytes):
    """The last line that is due, from its second word on."""
    tiles = tiles_in(f"{folder}/tiles").values()
    found = [sum(check[at] for it in tiles for check in it["checks"]) for at in range(2, 6)]
    covered = covered_of(BLOCK * sum(it["asked"] for it in tiles if it.get("cut")), disk_bytes)
    cuts = [it for it in lines if it["cut"] != "none"]
    flying = [it["in_flight"] for it in cuts if it["in_flight"]]
    return f": {covered}, {len(cuts)} cuts, {len(flying)} with writes in flight ({sum(flying):,} in all): {found[0]} lost in flight, {found[1]} lost at rest, {found[2]} misdirected" + (f", {found[3]} unread" if found[3] else "")


def judge_tour(folder, printed, lines, night, tiles, cuts):
    """What isn't as it has to be: of a tour of so many tiles, that has to have so many cuts at least."""
    due = ("faults" if night.faulty else "sound") + last_line(folder, lines, night.disk_bytes)
    said = printed.splitlines()[-1] if printed else "nothing"
    its = tiles_in(f"{folder}/tiles").values()
    wrong = {
        f"the last line isn't '{due}'": said != due,
        f"there are {len(lines)} cycles": [it["cycle"] for it in lines] != list(range(1, len(lines) + 1)),
        "there are too few cuts": sum(it["cut"] != "none" for it in lines) < cuts,
        f"{len(its)} tiles were written": len(its) != tiles,
        "a tile wasn't whole, or more than once": sum(it["whole"] for it in lines) != tiles,
        "no tile was cut short": not any(it["cut_short"] for it in lines),
        "no tile was whole at a cut that cut another one": not any(it["whole"] and it["cut_short"] for it in lines),
        "a tile wasn't checked behind the last cycle": {it["checked"] for it in its} != {len(lines)},
    }
    return [it for it, is_wrong in wrong.items() if is_wrong]
