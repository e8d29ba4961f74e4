"""An Identify as a session reads it: its 512 bytes, what they give when they are summed, the most sectors of a block and the number of bad sectors (document 02, "Fourteen", "One" and "Eight")."""
from . import card
from .halves import Halves

NAME = "Identify Drive"
BYTES = 512
LOW = 0xA5  # the low byte of word 255
MOST_IN_BLOCK = 47  # the word that says how many sectors a block of Read and Write Multiple may have
SIXTEEN = 0x0010  # what the card says there
BAD_SECTORS = 129  # the word that says how many marks are not 0
BUSY_OR_DATA = 0x88  # BSY and DRQ of Status: with neither, no data is there to be read


def verdict(data, status):
    """What a whole Identify gives, in words; the Status is one that said that no data was there, or None."""
    whole = f"Identify is read whole: its {BYTES} bytes give"
    doubted = f"{BYTES} bytes were read after ECH, though Status was {status:02X}H, without DRQ: they give" if status is not None else ""
    given = sum(data) % 256
    low = "" if data[-2] == LOW else f", and the low byte of word 255 is {data[-2]:02X}H, not {LOW:02X}H"
    return f"{doubted or whole} {'0' if given == 0 else f'{given:02X}H, not 0'}{low}"


def most_told(word, _sectors):
    """Word 47 in words; where it is another than the card's, that too."""
    other = "" if word == SIXTEEN else f", and the word is {word:04X}H, not {SIXTEEN:04X}H"
    return f"most sectors of a block: {word % 256}{other}"


def bad_told(word, sectors):
    """Word 129 in words, of a card of so many sectors."""
    return f"bad sectors: {word}{', more than there are sectors' if word > sectors else ''}"


TOLD = {MOST_IN_BLOCK: most_told, BAD_SECTORS: bad_told}


class Identify:
    """Collects the bytes of an Identify from access to access, however they are read."""

    def __init__(self, sectors):
        self.sectors = sectors  # N of the opening
        self.data = None  # the whole words so far; None where no Identify is being read
        self.halves = Halves()  # of the word at hand
        self.status = None  # one that was read since ECH and said that no data was there

    def follow(self, access, value, follower):
        """Takes over an accepted access; what is to be said of it, or nothing. The follower is as before it."""
        offset = follower.offset(access)
        if turn := self.turn(access, offset, follower):
            self.data, self.halves, self.status = ([] if turn == "begins" else None), Halves(), None
        elif self.data is not None and not access.write and offset in card.DATA:
            whole = self.halves.take(access, value, offset)
            return self.said(whole) if whole else ""
        elif not access.write and offset in (card.COMMAND, card.CONTROL) and not value & BUSY_OR_DATA:
            self.status = value
        return ""

    def said(self, whole):
        """Of the word that is whole now: what it is by its name, if data was there; of the last one the verdict on all."""
        self.data += whole
        told = TOLD.get(len(self.data) // 2 - 1)
        if told and self.status is None:
            return f"Word {len(self.data) // 2 - 1} of Identify, {told(whole[0] + 256 * whole[1], self.sectors)}"
        if len(self.data) < BYTES:
            return ""
        data, self.data = self.data, None
        return verdict(data, self.status)

    @staticmethod
    def turn(access, offset, follower):
        """What a write does to an Identify that is being read: a command or a reset ends it, and ECH begins another."""
        if not access.write or follower.held:
            return ""
        if (access.space, access.address) == (0, card.OPTION):
            return "ends" if access.value >= 128 else ""
        if offset == card.COMMAND:
            return "begins" if card.command_name(access.value) == NAME else "ends"
        return "ends" if offset == card.CONTROL and access.value & 4 else ""
