"""The word at hand of a transfer, which moves as a word or by its halves, either one first."""
from . import card


class Halves:
    """Which halves of a word have moved: its low byte at 0, its high byte at 1."""

    def __init__(self):
        self.word = {}

    def take(self, access, value, offset):
        """The two bytes of a word that is whole with this access, else None."""
        if access.width == 2:
            self.word = {0: value % 256, 1: value // 256}
        else:
            self.word[1 if offset in card.ODD or 0 in self.word else 0] = value
        if len(self.word) < 2:
            return None
        whole, self.word = (self.word[0], self.word[1]), {}
        return whole
