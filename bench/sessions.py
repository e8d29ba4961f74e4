"""The bench's sessions: an opening, and equal parts after it, so that cost over length can be held to a line.

Nothing here depends on chance or on a clock.
"""
from cardtools.records import LONGEST, Access, Opening, file_of, size_of

PC_CARD, TRUE_IDE = 0, 1
ATTRIBUTE, MEMORY, IO, IDE = range(4)
READ, WRITE, READ_MULTIPLE, WRITE_MULTIPLE, SET_MULTIPLE = 0x20, 0x30, 0xC4, 0xC5, 0xC6


def write(space, address, value, width=1):
    return Access(True, space, width, address, value)


def read(space, address, width=1):
    return Access(False, space, width, address, 0)


def command(space, base, lba, code, sectors=1):
    """So many sectors from an LBA on."""
    registers = ((2, sectors), (3, lba), (4, 0), (5, 0), (6, 0x40), (7, code))
    return [write(space, base + offset, value) for offset, value in registers]


def index_set(index):
    return [write(ATTRIBUTE, 0x200, index)]


def sixteen_set(space):
    """Read and Write Multiple move blocks of sixteen sectors from here on."""
    return [write(space, 2, 16), write(space, 7, SET_MULTIPLE)]


def words_written(part, code=WRITE, sectors=1):
    """A sector, or more, written by words, in True IDE mode."""
    yield from command(IDE, 0, part % 32, code, sectors)
    yield from (write(IDE, 0, (part * 257 + word * 3) % 65536, 2) for word in range(256 * sectors))
    yield read(IDE, 7)


def words_read(part, code=READ, sectors=1):
    """A sector, or more, read by words, in True IDE mode."""
    yield from command(IDE, 0, part % 32, code, sectors)
    yield from [read(IDE, 0, 2)] * (256 * sectors)
    yield read(IDE, 7)


def words(part):
    """A sector written and another read."""
    yield from words_written(part)
    yield from words_read(part + 1)


def words_multiple(part):
    """Two sectors written and two others read, each two in one block."""
    yield from words_written(part, WRITE_MULTIPLE, 2)
    yield from words_read(part + 2, READ_MULTIPLE, 2)


def bytes_written(part, code=WRITE):
    """A sector written by bytes, through the memory window: even and odd addresses in turn."""
    yield from command(MEMORY, 0, part % 32, code)
    yield from (write(MEMORY, 0x400 + byte, (part + byte * 5) % 256) for byte in range(512))
    yield read(MEMORY, 7)


def bytes_read(part, code=READ):
    """A sector read by bytes, through the memory window: even and odd addresses in turn."""
    yield from command(MEMORY, 0, part % 32, code)
    yield from (read(MEMORY, 0x400 + byte) for byte in range(512))
    yield read(MEMORY, 7)


def bytes_(part):
    """A sector written and another read."""
    yield from bytes_written(part)
    yield from bytes_read(part + 1)


def bytes_multiple(part):
    """A sector written and another read, each a block by itself: with two in a block a session is too short for a line."""
    yield from bytes_written(part, WRITE_MULTIPLE)
    yield from bytes_read(part + 1, READ_MULTIPLE)


def polling(part):
    """Every register read in turn, Status most, in the I/O map of index 2."""
    for address in (0x3F6, 0x1F1, 0x1F2, 0x1F3, 0x1F4, 0x1F5, 0x1F6, 0x3F7):
        yield from [read(IO, 0x1F7)] * 12
        yield read(IO, address)


def errors(part):
    """Commands that fail and accesses that are refused, in the I/O map of index 1."""
    for code, lba in ((0x20, 32), (0x30, 40), (0x40, 255), (0xC0, 33), (0x91, 0), (0xFF, 0)):
        yield from command(IO, 0, lba, code)
        yield from (read(IO, 7), read(IO, 1), write(IO, 7, 3), read(IO, 1))
    yield from (read(MEMORY, 7), read(IDE, 7), read(IO, 0xA), read(IO, 7, 2), write(ATTRIBUTE, 0x200, 4), write(ATTRIBUTE, 0, 1), read(IO, 0x800))


# By kind: mode, what comes once after the opening, the part.
KINDS = {
    "words": (TRUE_IDE, [], words),
    "bytes": (PC_CARD, [], bytes_),
    "polling": (PC_CARD, index_set(2), polling),
    "errors": (PC_CARD, index_set(1), errors),
    "words-read": (TRUE_IDE, [], words_read),
    "bytes-read": (PC_CARD, [], bytes_read),
    "words-written": (TRUE_IDE, [], words_written),
    "bytes-written": (PC_CARD, [], bytes_written),
    "words-multiple": (TRUE_IDE, sixteen_set(IDE), words_multiple),
    "bytes-multiple": (PC_CARD, sixteen_set(MEMORY), bytes_multiple),
}


def start(kind):
    mode, first, _ = KINDS[kind]
    return [Opening(4, 2, 4, mode), *first]


def records(kind, parts):
    body = KINDS[kind][2]
    return start(kind) + [access for part in range(parts) for access in body(part)]


def most_parts(kind):
    return (LONGEST - size_of(start(kind))) // size_of(list(KINDS[kind][2](0)))


def least_parts(kind):
    """After so many parts, every access has a number of four digits: shorter ones take less to print, and are on another line."""
    return next(parts for parts in range(most_parts(kind)) if session(kind, parts)[1] >= 999)


def lengths(kind, points=5):
    """Numbers of parts, from the least to the most that fit, evenly apart: so many, or all that there are."""
    least, most = least_parts(kind), most_parts(kind)
    return sorted({least + (most - least) * point // (points - 1) for point in range(points)})


def session(kind, parts):
    """The session file of so many parts, and how many accesses it has."""
    made = records(kind, parts)
    return file_of(made), len(made) - 1
