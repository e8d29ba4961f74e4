"""A run of a session: its printed lines held against the session, each in plain words."""
import re

from . import card
from .blocks import Blocks
from .calls import shortened
from .explain import explained, opening_fault, opening_told
from .follower import Follower
from .identify import Identify
from .records import LONGEST

HEADER = "n op answer value"


class Mismatch(Exception):
    """The printed lines are not those of this session."""


def parted(line, number):
    """A printed line of an access, as (n, letter, answer, value)."""
    found = re.fullmatch(r"([1-9][0-9]{0,4}) ([RW]) (0|[1-9][0-9]?) ([0-9A-F]{4})", line)
    if not found:
        raise Mismatch(f"printed line {number}: '{shortened(line)}' is no line of an access")
    return int(found[1]), found[2], int(found[3]), int(found[4], 16)


def misfit(access, answer, value, follower):
    """Why a printed answer can't be the card's for this access; empty where it can."""
    row = follower.row(access)
    if row and answer != row:
        return f"the access is refused by row {row}: {card.ROWS[row]}"
    if not row and answer and not (answer == 11 and follower.half_decides(access)):
        return f"row {answer} does not refuse this access"
    wanted = 0 if answer else follower.known(access)
    if wanted is not None and value != wanted:
        return f"the value is {wanted:04X}"
    return "a byte is 00FF at most" if access.width == 1 and value > 0xFF else ""


def access_pairs(records, printed):
    """(printed line, its explanation, whether it is plain data) for each access of a run."""
    opening = records[0]
    follower, tellers = Follower(opening.mode), (Identify(opening.c * opening.h * opening.s), Blocks(opening))
    for count, access in enumerate(records[1:], 1):
        line = printed[count] if count < len(printed) else None
        if line is None:
            raise Mismatch(f"printed line {count + 1}: the output ends, and access {count} of the session has no line")
        n, letter, answer, value = parted(line, count + 1)
        if (n, letter) != (count, "W" if access.write else "R"):
            raise Mismatch(f"printed line {count + 1}: it is '{line}', and the session has {count} {'W' if access.write else 'R'} there")
        if why := misfit(access, answer, value, follower):
            raise Mismatch(f"printed line {count + 1}: it is '{line}', and {why}")
        words, said = explained(access, answer, value, follower), ""
        plain = answer == 0 and not follower.held and access.space != 0 and follower.offset(access) in card.DATA
        if answer == 0:
            said = ". ".join(filter(None, [teller.follow(access, value, follower) for teller in tellers]))
            follower.follow(access, value)
        if said:
            yield line, f"{words}. {said}", None
        else:
            yield line, words, (access._replace(value=0), value) if plain else None


def end_pairs(records, broken, printed):
    """The pairs of all lines after the header: a refused opening, or the accesses and what is broken."""
    too_long = broken and broken.place == LONGEST  # nothing of it is run
    fault = opening_fault(records[0]) if records and not too_long else ""
    if fault:
        if printed[1:2] != ["open 1"]:
            raise Mismatch(f"printed line 2: this opening is refused by row 1 ({fault}), and 'open 1' is not there")
        yield printed[1], f"the opening is refused, row 1: {card.ROWS[1]} ({fault})", None
        return
    done = 1
    for pair in access_pairs(records, printed) if records and not too_long else ():
        yield pair
        done += 1
    if broken:
        if printed[done:done + 1] != [f"bad {broken.place}"]:
            raise Mismatch(f"printed line {done + 1}: the session is broken at {broken.place} ({broken.why}), and 'bad {broken.place}' is not there")
        where = "" if too_long else f"the record at byte {broken.place}: "
        yield printed[done], f"row 17: {card.ROWS[17]}: {where}{broken.why}", None


def pairs_of(records, broken, printed):
    """Every printed line with its explanation; Mismatch where they do not belong to this session."""
    if not printed or printed[0] != HEADER:
        raise Mismatch(f"printed line 1: a run begins with the header '{HEADER}'")
    yield printed[0], opening_told(records[0]) if records else "no opening in the file", None
    done = 1
    for pair in end_pairs(records, broken, printed):
        yield pair
        done += 1
    if done < len(printed):
        raise Mismatch(f"printed line {done + 1}: '{shortened(printed[done])}' is more than the session has")


def folded(pairs, least=4):
    """Runs of plain data at one place as one line each."""
    run = []

    def flush():
        if len(run) < least:
            yield from ((line, words) for line, words, _ in run)
        else:
            first, last = run[0][0].split(), run[-1][0].split()
            access = run[0][2][0]
            shown = " ".join(f"{value:0{2 * access.width}X}" for _, _, (_, value) in run[:8])
            words = run[0][1].rsplit(":", 1)[0]
            yield f"{first[0]}..{last[0]} {first[1]} 0", f"{words}, {len(run)} times: {shown}{' ..' if len(run) > 8 else ''}"
        run.clear()

    for pair in pairs:
        if run and (pair[2] is None or pair[2][0] != run[0][2][0]):
            yield from flush()
        if pair[2] is None:
            yield pair[0], pair[1]
        else:
            run.append(pair)
    yield from flush()


def annotated(records, broken, printed, fold=False):
    """The lines that --annotate prints."""
    pairs = pairs_of(records, broken, printed)
    for line, words in folded(pairs) if fold else ((line, words) for line, words, _ in pairs):
        yield f"{line:<20}{words}"
