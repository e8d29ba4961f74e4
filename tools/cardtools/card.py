"""The card's words (document 01, "Maps", "Registers", "Commands", "Answers"): what stands where, and what it is called."""
from . import opcodes

SPACE_NAMES = ("attribute", "memory", "I/O", "True IDE")
MODES = {0: "PC Card", 1: "True IDE"}

INDEX_MAPS = {
    0: "memory 000H..7FFH",
    1: "I/O 000H..7FFH",
    2: "I/O 1F0H..1F7H, 3F6H, 3F7H",
    3: "I/O 170H..177H, 376H, 377H",
}

# By offset: the name when read, the name when written.
REGISTERS = {
    0x0: ("Data", "Data"),
    0x1: ("Error", "Feature"),
    0x2: ("Sector Count", "Sector Count"),
    0x3: ("Sector Number", "Sector Number"),
    0x4: ("Cylinder Low", "Cylinder Low"),
    0x5: ("Cylinder High", "Cylinder High"),
    0x6: ("Drive/Head", "Drive/Head"),
    0x7: ("Status", "Command"),
    0x8: ("Data", "Data"),
    0x9: ("Data, odd byte", "Data, odd byte"),
    0xD: ("Error", "Feature"),
    0xE: ("Alternate Status", "Device Control"),
    0xF: ("Drive Address", "Drive Address"),
}
COMMAND, CONTROL = 0x7, 0xE  # Status and Alternate Status when read, Command and Device Control when written
OPTION = 0x200  # the address of Configuration Option in attribute memory
WORDS, ODD = (0x0, 0x8), (0x9,)  # the data register by its even and its odd address
DATA = WORDS + ODD
NOT_WITH_DRQ = (1, 2, 3, 4, 5, 6, 0xD)  # written without effect while DRQ is set

# The row of each refusal that a session can show, in 01's words.
ROWS = {
    1: "opening: geometry or mode outside the limits",
    6: "no register there, or a write to the tuples",
    7: "the space does not answer",
    8: "held by SRESET, and the access is not to attribute 200H",
    9: "width not 1 or 2; a word anywhere but an even data address; a byte write above 255",
    10: "Configuration Option write with index above 3",
    11: "the half word asked for is already moved, or a word is asked for with one half moved",
    17: "session file broken",
}

STATUS = {
    0x50: "idle (RDY, DSC)",
    0x58: "data can move (RDY, DSC, DRQ)",
    0x51: "the last command ended in error (RDY, DSC, ERR)",
    0x71: "the last command ended in a write fault (RDY, DWF, DSC, ERR)",
    0x80: "busy (BSY)",
}

ERRORS = {0x00: "no error", 0x04: "ABRT, the command was aborted", 0x10: "IDNF, no such sector", 0x40: "UNC, the sector can't be read"}
# of Verify and Erase: a bad start, or a run past the end
RUN_NOT_FOUND = "IDNF, no such sector, or the run is past the end; nothing is done"

# The CFA's extended error codes.
CODES = {
    0x00: "No Error Detected",
    0x01: "Self-Test OK (No Error)",
    0x03: "Write / Erase Failed",
    0x09: "Miscellaneous Error",
    0x11: "Uncorrectable ECC Error",
    0x18: "Corrected ECC Error",
    0x1F: "Data Transfer Error / Aborted Command",
    0x20: "Invalid Command",
    0x21: "Invalid Address (Requested Head or Sector Invalid)",
    0x22: "Power Level 1 Disabled",
    0x2F: "Address Overflow (Address Too Large)",
    0x3A: "Spare Sectors Exhausted",
    **dict.fromkeys((0x10, 0x14), "ID Not Found"),
    **dict.fromkeys((0x35, 0x36), "Supply or generated Voltage Out of Tolerance"),
    **dict.fromkeys((0x05, 0x30, 0x31, 0x32, 0x33, 0x34, 0x37, 0x3E), "Self-Test or Diagnostic Failed"),
    **dict.fromkeys((0x0C, 0x38, 0x3B, 0x3C, 0x3F), "Corrupted Media Format"),
}


def offset_of(space, index, address):
    """The offset of an address in the map of its space and index; None where the map has none."""
    if space == 1 and index == 0:
        return address % 16 if address <= 0x3FF else 8 + address % 2 if address <= 0x7FF else None
    if space == 2 and index == 1:
        return address % 16 if address <= 0x7FF else None
    windows = {(2, 2): (0x1F0, 0x3F6, 0x3F7), (2, 3): (0x170, 0x376, 0x377)}
    first, alternate, drive = (0x00, 0x16, 0x17) if space == 3 else windows.get((space, index), (None, None, None))
    if first is None:
        return None
    if first <= address <= first + 7:
        return address - first
    return {alternate: 0xE, drive: 0xF}.get(address)


def answers(space, mode, index):
    """Whether a space answers (row 7)."""
    if mode == 1:
        return space == 3
    return space == 0 or space == 1 and index == 0 or space == 2 and index in (1, 2, 3)


def register_name(offset, write):
    """The name of the register at an offset; None where there is none."""
    return REGISTERS[offset][write] if offset in REGISTERS else None


def command_name(code):
    """The name of an opcode's command, as the table that decides has it."""
    name = opcodes.command_names()[code]
    return "no command of the card" if name == opcodes.OTHERS else name


def access_words(access, spaces):
    """An access without its value, the space by its name in the list given."""
    width = " word" if access.width == 2 else ""
    digits = 2 if access.space == 3 and access.address <= 0xFF else 3
    return f"{'write' if access.write else 'read'}{width} {spaces[access.space]} {access.address:0{digits}X}"


def opening_words(opening):
    """How large the card of an opening is, and its mode."""
    return f"{opening.c * opening.h * opening.s} sectors, {MODES.get(opening.mode, f'mode {opening.mode}')}"
