"""Blocks of several sectors as a session moves them (document 02, "One"): the block that Set Multiple sets, and where Read
or Write Multiple stands in it.

A session's marks are all 0, so the session alone tells which sectors move. Where a Status that was read says otherwise,
nothing is said until the next command.
"""
from . import card
from .address import Geometry, advance, remaining, reshaped
from .halves import Halves

SIZES = (1, 2, 4, 8, 16)
WORDS = 256  # of a sector
DATA = 0x08  # DRQ of Status
POWER_ON = {2: 1, 3: 1, 4: 0, 5: 0, 6: 0}  # Sector Count and the address registers, after 90H too
MULTIPLE = ("Read Multiple", "Write Multiple")
READS = ("Read Sectors", "Read Multiple", "Read Buffer", "Identify Drive")
MARKED = ", the interrupt mark is set"


def counted(sectors):
    return "1 sector" if sectors == 1 else f"{sectors} sectors"


class Transfer:
    """A command's data: of so many sectors, a block of them at a time, or of the buffer."""

    def __init__(self, name, asked, block):
        self.name = name
        self.reads = name in READS
        self.told = name in MULTIPLE
        self.asked = asked  # sectors; 0 for the buffer
        self.block = block  # sectors from one interrupt to the next
        self.moved = 0  # whole sectors
        self.words = 0  # of the sector at hand
        self.halves = Halves()

    def take(self, access, value, offset):
        """Whether a sector is whole with this access."""
        if access.write == self.reads or self.halves.take(access, value, offset) is None:
            return False
        self.words = (self.words + 1) % WORDS
        return self.words == 0

    @property
    def done(self):
        return "read" if self.reads else "stored"

    def begun(self):
        return f"{counted(self.asked)} in blocks of {self.block}; block 1 begins" + (MARKED if self.reads else "")

    def sector_told(self, good):
        """Of the sector that has just moved: its place in its block, and what comes next; whether that is there, if more are asked for."""
        block, place = divmod(self.moved - 1, self.block)
        left = self.asked - self.moved
        ends = place + 1 == self.block or left == 0
        words = f"Sector {self.moved} of {self.asked} is {self.done}, {'the last' if ends else f'number {place + 1}'} of block {block + 1}"
        if left == 0:
            return f"{words}; the command ends" + ("" if self.reads else MARKED)
        if not good:
            return f"{words}; the next one is not there, IDNF{MARKED}"
        return f"{words}; block {block + 2} begins{MARKED}" if ends else words

    def dropped(self):
        return f"{self.name} is dropped, with {self.moved} of {counted(self.asked)} {self.done}" if self.told else ""


class Blocks:
    """Follows the block, the registers that say which sectors a command means, and the running transfer."""

    def __init__(self, opening):
        self.default = Geometry(*opening[:3])
        self.power_on()

    def power_on(self):
        """As at power-on, and as both resets leave it."""
        self.block = 0  # none
        self.current = self.default
        self.registers = dict(POWER_ON)
        self.transfer = None

    def follow(self, access, value, follower):
        """Takes over an accepted access; what is to be said of it, or nothing. The follower is as before it."""
        offset = follower.offset(access)
        if access.write and access.space == 0:
            return self.reset(access.value >= 128, follower.sreset)
        if access.write and offset == card.CONTROL:
            return self.reset(access.value & 4, follower.held)
        if access.space == 0 or follower.held:
            return ""
        if offset in card.DATA:
            return self.data(access, value, offset)
        return self.written(offset, access.value) if access.write else self.seen(offset, value)

    def reset(self, holds, held):
        """A write to Configuration Option or Device Control: what a reset ends, and what it forgets when it is left."""
        if holds:
            return self.drop()
        if not held:
            return ""
        forgotten = f"The block of {self.block} is forgotten" if self.block else ""
        self.power_on()
        return forgotten

    def drop(self):
        transfer, self.transfer = self.transfer, None
        return transfer.dropped() if transfer else ""

    def seen(self, offset, value):
        """A register that was read is as it was read; a Status that can't be is of another card."""
        if offset in self.registers:
            self.registers[offset] = value
        elif offset in (card.COMMAND, card.CONTROL) and not value & DATA:
            self.transfer = None
        return ""

    def written(self, offset, value):
        if offset == card.COMMAND:
            said = self.drop(), self.commanded(card.command_name(value))
            return ". ".join(filter(None, said))
        if offset in self.registers and not self.transfer:
            self.registers[offset] = value
        return ""

    # ---- commands

    @property
    def count(self):
        return self.registers[2] or 256

    @property
    def room(self):
        return remaining(self.registers, self.current, self.default.capacity)

    def commanded(self, name):
        """What a command does to all this; what is to be said of it, or nothing."""
        if name in ("Read Buffer", "Write Buffer", "Identify Drive"):
            self.transfer = Transfer(name, 0, 1)
        elif name in ("Read Sectors", "Write Sectors"):
            self.begin(name, 1)
        elif name in ("Read Verify Sectors", "Erase Sectors"):
            self.run()
        elif name == "Initialize Drive Parameters":
            self.current = reshaped(self.registers[2], self.registers[6], self.default.capacity) or self.current
        elif name == "Execute Drive Diagnostic":
            self.registers = dict(POWER_ON)
        elif name == "Set Multiple":
            return self.set_block(self.registers[2])
        elif name in MULTIPLE:
            return self.begin(name, self.block) if self.block else "ABRT: no block is set since power-on or the last reset"
        return ""

    def set_block(self, count):
        if count in SIZES:
            self.block = count
            return f"The block is {counted(count)}"
        stays = f"the block of {self.block} stays" if self.block else "there is no block, as before"
        return f"ABRT: Sector Count is {count}, and a block has 1, 2, 4, 8 or 16 sectors; {stays}"

    def begin(self, name, block):
        if not self.room:
            return f"The first sector is not there, IDNF{MARKED}"
        self.transfer = Transfer(name, self.count, block)
        return self.transfer.begun()

    def run(self):
        """Verify or Erase: all of it, or, where it is past the end, nothing."""
        if self.count > self.room:
            return
        for _ in range(self.count - 1):
            advance(self.registers, self.current)
        self.registers[2] = 0

    # ---- data

    def data(self, access, value, offset):
        """A data access; of the last byte of a sector that Read or Write Multiple moves, where it stands in its block."""
        transfer = self.transfer
        if not transfer or not transfer.take(access, value, offset):
            return ""
        good = transfer.asked and self.next_sector(transfer)
        if not good:
            self.transfer = None
        return transfer.sector_told(good) if transfer.told else ""

    def next_sector(self, transfer):
        """Whether there is one to do and it is there; the registers name it."""
        transfer.moved += 1
        left = transfer.asked - transfer.moved
        self.registers[2] = left % 256
        if left:
            advance(self.registers, self.current)
        return left > 0 and self.room > 0
