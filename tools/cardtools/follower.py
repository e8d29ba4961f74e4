"""Where the card stands in a session, as far as the accesses and the answers so far tell it."""
from . import card

# what the Error register holds after a command, but for "flags"; after Verify and Erase flags too, of a run
ERROR_AFTER = {"Request Sense": "code", "Execute Drive Diagnostic": "diagnostic", "Read Verify Sectors": "run", "Erase Sectors": "run"}


class Follower:
    """Follows what decides a name or a refusal: mode, map setting, the two resets, what the Error register holds, and
    whether DRQ is known to be set.

    All but the last can be told from the session alone: only row 11 needs to know more of the card, and it stands at
    the data register.
    """

    def __init__(self, mode):
        self.mode = mode
        self.option = 0  # Configuration Option as last written
        self.held = False
        self.error = "diagnostic"  # or "flags", "run", "code"
        self.data_wanted = False  # Status was read as 58H, and nothing since can have cleared DRQ

    @property
    def index(self):
        return self.option % 64

    @property
    def sreset(self):
        return self.option >= 128

    def offset(self, access):
        if not card.answers(access.space, self.mode, self.index):
            return None
        return card.offset_of(access.space, self.index, access.address)

    def name(self, access):
        """What stands at the place of an access; None where nothing does."""
        if access.space == 0 and self.mode == 0:
            if access.address == card.OPTION:
                return "Configuration Option"
            if access.address < card.OPTION and access.address % 2 == 0:
                return f"tuple byte {access.address // 2}"
            return None
        return card.register_name(self.offset(access), access.write)

    def row(self, access):
        """The row that refuses an access, 8, 7, 6, 9 or 10; None where none of these does."""
        to_option = (access.space, access.address) == (0, card.OPTION)
        if self.sreset and not to_option:
            return 8
        if not card.answers(access.space, self.mode, self.index):
            return 7
        if self.name(access) is None or access.space == 0 and access.write and not to_option:
            return 6
        if access.width == 2 and self.offset(access) not in card.WORDS:
            return 9
        return 10 if to_option and access.write and access.value % 64 > 3 else None

    def half_decides(self, access):
        """Whether row 11 can refuse an access that no other row does."""
        return not self.held and self.offset(access) in (card.WORDS if access.width == 2 else card.ODD)

    def known(self, access):
        """The value of an accepted access where the session alone tells it, else None."""
        if access.write:
            return access.value
        if access.space == 0:
            return self.option if access.address == card.OPTION else 0xFF
        return (0x8080 if access.width == 2 else 0x80) if self.held else None

    def follow(self, access, value=None):
        """Takes over what an access changes of all this; the value is that of an answer, where there is one."""
        if self.row(access) is not None:
            return
        offset = self.offset(access)
        if access.space == 0:
            self.set_option(access)
        elif not access.write:
            self.data_wanted = value == 0x58 if offset in (card.COMMAND, card.CONTROL) else self.data_wanted and offset not in card.DATA
        elif offset == card.CONTROL:
            self.set_control(access.value)
        elif not self.held:
            self.data_wanted = self.data_wanted and offset not in (card.COMMAND, *card.DATA)
            if offset == card.COMMAND:
                self.error = ERROR_AFTER.get(card.command_name(access.value), "flags")

    def set_option(self, access):
        if not access.write:
            return
        if self.sreset and access.value < 128:
            self.held, self.error = False, "diagnostic"
        self.option = access.value
        self.data_wanted = self.data_wanted and not self.sreset

    def set_control(self, value):
        if self.held and not value & 4:
            self.error = "diagnostic"
        self.held = bool(value & 4)
        self.data_wanted = self.data_wanted and not self.held
