"""An access and its answer in plain words, where the card stands as a follower tells it; and an opening."""
from . import card
from .records import MOST_SECTORS


# ---- what a value means

def bits(value, names):
    return ", ".join(name for bit, name in names if value & bit) or "no bit set"


def drive_head(value):
    drive = f"drive {value >> 4 & 1}"
    return f"LBA, {drive}, LBA bits 27..24 {value & 15:X}H" if value & 0x40 else f"CHS, {drive}, head {value & 15}"


def drive_address(value):
    drive = "drive 1" if not value & 2 else "drive 0" if not value & 1 else "no drive"
    return f"head {~value >> 2 & 15}, {drive}{'' if value & 0x40 else ', data is being written'}"


def option(value, follower):
    where = f"index {value % 64}: {card.INDEX_MAPS.get(value % 64, 'no map')}"
    if value >= 128:
        return f"SRESET holds the card; {where}"
    return f"SRESET is cleared, power-on; {where}" if follower.sreset else where


def control(value, follower):
    mask = "the interrupt line is masked" if value & 2 else "the interrupt line is not masked"
    if value & 4:
        return f"the reset holds the card; {mask}"
    return f"the reset is left, power-on registers; {mask}" if follower.held else mask


def error(value, kind):
    if kind == "code":
        return f"extended error code: {card.CODES.get(value, 'not in the CFA list')}"
    if kind == "diagnostic":
        return "diagnostic code, no error" if value == 1 else f"diagnostic code {value:02X}H"
    if kind == "run" and value == 0x10:
        return card.RUN_NOT_FOUND
    return card.ERRORS.get(value) or bits(value, ((0x40, "UNC"), (0x10, "IDNF"), (0x04, "ABRT")))


def status(value):
    named = ((0x80, "BSY"), (0x40, "RDY"), (0x20, "DWF"), (0x10, "DSC"), (0x08, "DRQ"), (0x01, "ERR"))
    return card.STATUS.get(value) or bits(value, named)


def read_meaning(offset, value, follower):
    if follower.held:
        return "Device Control's reset holds the card"
    if offset in (1, 0xD):
        return error(value, follower.error)
    if offset in (card.COMMAND, card.CONTROL):
        return status(value)
    if offset == 6:
        return drive_head(value)
    if offset == 0xF:
        return drive_address(value)
    return str(value) if offset in (2, 3, 4, 5) else ""


def write_meaning(offset, value, follower):
    if offset == card.CONTROL:
        return control(value, follower)
    if follower.held:
        return "no effect: Device Control's reset holds the card"
    if follower.data_wanted and offset in card.NOT_WITH_DRQ:
        return "no effect while DRQ is set"
    if offset == card.COMMAND:
        return card.command_name(value)
    if offset == 6:
        return drive_head(value)
    if offset == 2:
        return "0: 256 sectors for a sector command" if value == 0 else str(value)
    if offset == 0xF:
        return "writes here have no effect"
    return {1: "nothing reads it", 0xD: "nothing reads it"}.get(offset, str(value) if offset in (3, 4, 5) else "")


def meaning(access, value, follower):
    if access.space == 0:
        if access.address == card.OPTION:
            return option(value, follower)
        return "end mark, the chain has no tuple" if access.address == 0 and value == 0xFF else ""
    return (write_meaning if access.write else read_meaning)(follower.offset(access), value, follower)


# ---- refusals

def no_answer(access, follower):
    mode, space = follower.mode, access.space
    if mode == 1:
        return "in True IDE mode only True IDE space answers"
    if space == 3:
        return "True IDE space answers only in True IDE mode, and this is a PC Card"
    wanted = "memory answers only at index 0" if space == 1 else "I/O answers only at index 1, 2 and 3"
    return f"{wanted}, and the index is {follower.index}"


def no_register(access, follower):
    if access.space != 0:
        places = "00H..07H, 16H, 17H" if access.space == 3 else card.INDEX_MAPS[follower.index]
        low = follower.offset(access)
        return f"offset {low:X} has no register" if low is not None else f"the map has {places}"
    if access.address % 2:
        return "odd attribute addresses have nothing"
    if access.address > card.OPTION:
        return "attribute memory ends at 200H"
    return "the tuples are read only"


def wrong_width(access, follower):
    return f"a word, and this place ({follower.name(access)}) takes bytes only"


REASONS = {
    6: no_register,
    7: no_answer,
    8: lambda access, follower: "only attribute 200H answers until its bit 7 is cleared",
    9: wrong_width,
    10: lambda access, follower: f"the index here is {access.value % 64}",
    11: lambda access, follower: "a word with one half moved" if access.width == 2 else "the high half has moved already",
}


# ---- an access, an opening

def place_words(access, follower):
    words = card.access_words(access, card.SPACE_NAMES) + "H"
    name = follower.name(access)
    return f"{words}, {name}" if name else words


def explained(access, answer, value, follower):
    """One access with its answer, in words."""
    words = place_words(access, follower)
    if answer:
        return f"{words}: refused, row {answer}: {card.ROWS[answer]} ({REASONS[answer](access, follower)})"
    says = meaning(access, value, follower)
    shown = f"{value:0{2 * access.width}X}H"
    return f"{words}: {shown}, {says}" if says else f"{words}: {shown}"


def opening_told(opening):
    return f"opening: C {opening.c}, H {opening.h}, S {opening.s}, {card.opening_words(opening)}"


def opening_fault(opening):
    """The limits that an opening breaks, in words."""
    total = opening.c * opening.h * opening.s
    tests = (
        (opening.c >= 1, "C is 0"),
        (1 <= opening.h <= 16, f"H is {opening.h}, and 1..16 is allowed"),
        (1 <= opening.s <= 255, f"S is {opening.s}, and 1..255 is allowed"),
        (total <= MOST_SECTORS, f"it has {total:,} sectors, and {MOST_SECTORS} is the most in a session"),
        (opening.mode in card.MODES, f"the mode is {opening.mode}, and 0 (PC Card) and 1 (True IDE) are allowed"),
    )
    return "; ".join(why for good, why in tests if not good)
