"""Where a sector stands: the address registers of offsets 3 to 6, by the current geometry (document 01, "Commands")."""
from typing import NamedTuple

LBA = 0x40  # the bit of Drive/Head that selects it
NIBBLE = 0x0F  # the head in Drive/Head, or the top of the LBA


class Geometry(NamedTuple):
    c: int
    h: int
    s: int

    @property
    def capacity(self):
        return self.c * self.h * self.s


def reshaped(count, drive_head, total):
    """The geometry that 91H sets; None where it is refused."""
    heads = drive_head % 16 + 1
    return Geometry(total // (heads * count), heads, count) if 0 < heads * count <= total else None


def parts(registers):
    """The cylinder, the head's nibble and the sector number."""
    return registers[5] << 8 | registers[4], registers[6] & NIBBLE, registers[3]


def lba_of(registers):
    cylinder, nibble, sector = parts(registers)
    return nibble << 24 | cylinder << 8 | sector


def remaining(registers, current, total):
    """How many sectors there are from the address on, it among them; 0 where it is not good."""
    if registers[6] & LBA:
        return max(total - lba_of(registers), 0)
    cylinder, head, sector = parts(registers)
    if not (cylinder < current.c and head < current.h and 1 <= sector <= current.s):
        return 0
    return current.capacity - (cylinder * current.h + head) * current.s - sector + 1


def put(registers, cylinder, nibble, sector):
    registers.update({3: sector, 4: cylinder % 256, 5: cylinder >> 8, 6: registers[6] & ~NIBBLE | nibble})


def advance(registers, current):
    """The address registers go on to the next sector."""
    if registers[6] & LBA:
        lba = lba_of(registers) + 1
        put(registers, lba >> 8 & 0xFFFF, lba >> 24, lba % 256)
        return
    cylinder, head, sector = parts(registers)
    tracks, sector = divmod(sector, current.s)
    cylinders, head = divmod(head + tracks, current.h)
    put(registers, cylinder + cylinders, head, sector + 1)
