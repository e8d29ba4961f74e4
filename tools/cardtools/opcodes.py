"""The opcode table, read from the source that decides: the command of each opcode, and a page for people."""
import functools
import itertools
import os
import re

ROOT = os.path.realpath(os.path.join(os.path.dirname(__file__), "..", ".."))
SOURCE = os.path.join(ROOT, "crates", "commands", "src", "opcodes.rt")
CLASS = re.compile(r"^// ([^\n:]+)(?:: [^\n]*)?\nconst (\w): u8 = (\d+);$", re.M)
DIGITS = "0123456789ABCDEF"
TABLE = re.compile(rf"^//   {'  '.join(DIGITS)}\nconst OPCODE_TABLE: [^\n]*\n(.*?)^\];$", re.M | re.S)
ROW = re.compile(r"    \[(.*)\], // (.)XH")
OTHERS = "others"


class Fault(Exception):
    """The source can't be read as an opcode table."""


def commands_of(source):
    """The letter and the name of each opcode's class, in order: sixteen for each row."""
    classes = CLASS.findall(source)
    names = {letter: name for name, letter, _ in classes}
    if not len({number for _, _, number in classes}) == len(set(names.values())) == len(classes):
        raise Fault("two classes have one number or one name")
    tables = TABLE.findall(source)
    if len(tables) != 1:
        raise Fault(f"the source has {len(tables)} opcode tables")
    lines = tables[0].splitlines()
    rows = [ROW.fullmatch(line) for line in lines]
    if [row and row[2] for row in rows] != list(DIGITS):
        raise Fault(f"the table has not the rows 0XH to FXH: {len(lines)} lines")
    for row in rows:
        letters = row[1].split(", ")
        if len(letters) != 16 or not set(letters) <= set(names):
            raise Fault(f"row {row[2]}XH has not sixteen classes: {row[1]}")
        yield from ((letter, names[letter]) for letter in letters)


def read():
    try:
        with open(SOURCE, encoding="utf-8") as file:
            return list(commands_of(file.read()))
    except OSError as fault:
        raise Fault(f"{fault.filename}: {fault.strerror}") from fault
    except UnicodeDecodeError as fault:
        raise Fault(f"{SOURCE}: not a text") from fault


@functools.cache
def command_names():
    """The name of each opcode's command; 01's "others" have that name."""
    return [name for _, name in read()]


def stretch(codes):
    return f"{codes[0]:02X}H..{codes[-1]:02X}H" if len(codes) > 2 else " ".join(f"{code:02X}H" for code in codes)


def row_names(first, row):
    """The commands of a row with their opcodes, those that follow each other together."""
    for name, group in itertools.groupby(enumerate(row, 16 * first), key=lambda entry: entry[1][1]):
        if name != OTHERS:
            yield f"{stretch([code for code, _ in group])} {name}"


def page(commands):
    """The table with the commands' names, a line for each row."""
    yield "      " + " ".join(DIGITS)
    for first, digit in enumerate(DIGITS):
        row = commands[16 * first:16 * first + 16]
        letters = " ".join("." if name == OTHERS else letter for letter, name in row)
        yield f"{digit}XH   {letters}   {', '.join(row_names(first, row))}".rstrip()
