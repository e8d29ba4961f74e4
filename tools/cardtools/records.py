"""The session file (document 01, "Session file"): its records, and what is broken about a file."""
import re
import struct
from typing import NamedTuple

LONGEST = 32768
MOST_SECTORS = 32
LENGTHS = {1: 12, 2: 10, 3: 8}
KINDS = {1: "an opening", 2: "a write", 3: "a read"}


class Opening(NamedTuple):
    c: int
    h: int
    s: int
    mode: int

    def encoded(self):
        return struct.pack("<6H", 12, 1, *self)


class Access(NamedTuple):
    write: bool
    space: int
    width: int
    address: int
    value: int  # 0 for a read

    def encoded(self):
        if self.write:
            return struct.pack("<2H2B2H", 10, 2, self.space, self.width, self.address, self.value)
        return struct.pack("<2H2BH", 8, 3, self.space, self.width, self.address)


class Break(NamedTuple):
    place: int  # of the broken record's first byte
    why: str


class Broken(Exception):
    """Why a record is broken."""


def is_text(file):
    """Whether a file begins as a text does, and so is no session file."""
    return bool(re.fullmatch(rb"(\xEF\xBB\xBF)?[\t\n\r -~][\t\n\r -~\x80-\xFF]*", file[:64]))


def record_at(file, place):
    """The record that begins at a place, and its length; Broken where it is none, by the card's tests in the card's order."""
    left = len(file) - place
    first = place == 0
    if left == 0:
        raise Broken("the file is empty")
    if left < 4:
        raise Broken(f"only {left} of its bytes are there, and a record's length and kind take 4")
    length, kind = struct.unpack_from("<2H", file, place)
    if left < length:
        raise Broken(f"it takes {length} bytes, and {left} are left")
    if length < 4:
        raise Broken(f"its length is {length}, and a record's length and kind take 4")
    if kind not in KINDS:
        raise Broken(f"its kind is {kind}, which is none of 1 (opening), 2 (write), 3 (read)")
    if first and kind != 1:
        raise Broken(f"the first record is {KINDS[kind]}, not an opening")
    if not first and kind == 1:
        raise Broken("it is a second opening")
    if length != LENGTHS[kind]:
        raise Broken(f"its length is {length}, and {KINDS[kind]} has {LENGTHS[kind]}")
    if kind == 1:
        return Opening(*struct.unpack_from("<4H", file, place + 4)), length
    space, width, address = struct.unpack_from("<2BH", file, place + 4)
    value = struct.unpack_from("<H", file, place + 8)[0] if kind == 2 else 0
    if space > 3:
        raise Broken(f"its space is {space}, which is none of 0..3")
    if width not in (1, 2):
        raise Broken(f"its width is {width}, which is neither 1 nor 2")
    if width == 1 and value > 255:
        raise Broken(f"its byte value is {value:04X}H, above FFH")
    return Access(kind == 2, space, width, address, value), length


def records_of(file):
    """The records from the front that are not broken and end within the longest file, and the Break after them or None."""
    records, place, broken = [], 0, None
    while place < len(file) or place == 0:
        try:
            record, length = record_at(file, place)
        except Broken as why:
            broken = Break(place, str(why))
            break
        if place + length > LONGEST:
            break
        records.append(record)
        place += length
    if len(file) > LONGEST:
        broken = Break(LONGEST, f"the file has {len(file):,} bytes, and {LONGEST:,} is the most; nothing of it is run")
    if not records and is_text(file):
        broken = broken._replace(why=f"{broken.why}; the file is text, of which tools/session makes a session file")
    return records, broken


def size_of(records):
    return sum(len(record.encoded()) for record in records)


def file_of(records):
    return b"".join(record.encoded() for record in records)
