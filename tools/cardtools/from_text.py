"""The session file that a text describes."""
import re

from .calls import shortened
from .records import LONGEST, Access, Opening, file_of

MOST_REPEATED = 32 * LONGEST  # bytes that one line's repeat may make where the length is not looked at
MODE_WORDS = {"pc-card": 0, "true-ide": 1}
WIDTHS = {"byte": 1, "word": 2}
SPACES = ("attribute", "memory", "io", "ide")
SPACE_WORDS = {word: number for number, word in enumerate(SPACES)}


class Fault(Exception):
    """What is wrong with one line."""


class Bad(Exception):
    """What is wrong with a text: a list of (line, message)."""

    def __init__(self, faults):
        super().__init__("\n".join(f"line {line}: {message}" for line, message in faults))
        self.faults = faults


def decimal(word, what):
    if not re.fullmatch(r"[0-9]+", word):
        raise Fault(f"{what} is a decimal number, not '{shortened(word)}'")
    digits = word.lstrip("0") or "0"
    if len(digits) > 5 or int(digits) > 65535:
        raise Fault(f"{what} is {shortened(word)}, and 65535 is the most")
    return int(digits)


def hexadecimal(word, what, most):
    digits = word[:-1] if word[-1:] in ("H", "h") else word
    if not re.fullmatch(r"[0-9A-Fa-f]+", digits):
        how = " without 0x" if word[:2] in ("0x", "0X") else ""
        raise Fault(f"{what} is a hexadecimal number{how}, not '{shortened(word)}'")
    number = int(digits, 16)
    if number > most:
        raise Fault(f"{what} is {shortened(word)}, and {most:X} is the most")
    return number


def take_repeat(words):
    """The words without an xN at their end, and N."""
    if not words or not re.fullmatch(r"[xX].*", words[-1]):
        return words, 1
    digits = words[-1][1:]
    if not re.fullmatch(r"0*[0-9]{1,5}", digits) or not 1 <= int(digits.lstrip("0") or "0") <= LONGEST:
        raise Fault(f"a repeat is x1 to x{LONGEST}, not '{shortened(words[-1])}'")
    return words[:-1], int(digits.lstrip("0"))


def opening_of(words):
    if len(words) != 4:
        raise Fault(f"open takes C, H, S and the mode, and here {told(words)}")
    c, h, s = (decimal(word, name) for word, name in zip(words, "CHS"))
    mode = words[3].lower()
    if mode in MODE_WORDS:
        return Opening(c, h, s, MODE_WORDS[mode])
    if not re.fullmatch(r"[0-9]+", mode):
        raise Fault(f"the mode is pc-card, true-ide or a decimal number, not '{shortened(words[3])}'")
    return Opening(c, h, s, decimal(mode, "the mode"))


def accesses_of(verb, words):
    """The accesses of a line, and how many times they are to be made."""
    words, repeat = take_repeat(words)
    width = 1
    if words and words[0].lower() in WIDTHS:
        width = WIDTHS[words[0].lower()]
        words = words[1:]
    if not words:
        raise Fault(f"{verb} wants a space: {', '.join(SPACES)}")
    if words[0].lower() not in SPACE_WORDS:
        raise Fault(f"the space is one of {', '.join(SPACES)}, not '{shortened(words[0])}'")
    space = SPACE_WORDS[words[0].lower()]
    if len(words) < 2:
        raise Fault(f"{verb} wants an address after the space")
    address = hexadecimal(words[1], "the address", 0xFFFF)
    values = words[2:]
    if verb == "read":
        if values:
            raise Fault(f"a read ends after its address or xN, and here {told(values)} more")
        return [Access(False, space, width, address, 0)], repeat
    if not values:
        raise Fault("write wants a value after the address")
    what, most = ("the byte", 0xFF) if width == 1 else ("the word", 0xFFFF)
    return [Access(True, space, width, address, hexadecimal(word, what, most)) for word in values], repeat


def bytes_of(words):
    for word in words:
        if not re.fullmatch(r"[0-9A-Fa-f]{2}", word):
            raise Fault(f"a byte is two hexadecimal digits, not '{shortened(word)}'")
    return bytes(int(word, 16) for word in words)


def told(words):
    return "is nothing" if not words else f"stands '{shortened(' '.join(words), 40)}'" if len(words) < 9 else f"are {len(words)} words"


class Maker:
    """Takes the lines one by one and makes the session file of them, or the list of (line, message) of what is wrong."""

    def __init__(self):
        self.file = bytearray()
        self.size = 0  # of the file as the text has it, made or too long to be made
        self.opened = None  # the line of the first open, good or not
        self.unopened = False  # an access before any open was told
        self.loose = False  # after a `bytes` line nothing is said about order and length
        self.faults = []

    def tell(self, number, message):
        self.faults.append((number, message))

    def line(self, number, words):
        verb, rest = words[0].lower(), words[1:]
        try:
            if verb == "bytes":
                self.loose = True
                self.add(bytes_of(rest))
            elif verb == "open":
                self.open(number, rest)
            elif verb in ("read", "write"):
                self.access(number, verb, rest)
            else:
                raise Fault(f"a line begins with open, read, write or bytes, not '{shortened(words[0])}'")
        except Fault as fault:
            self.tell(number, str(fault))

    def open(self, number, words):
        first = self.opened
        self.opened = first or number
        if first and not self.loose:
            self.tell(number, f"a session is opened once, and line {first} has an open already")
        self.add(opening_of(words).encoded())

    def access(self, number, verb, words):
        if not self.opened and not self.unopened and not self.loose:
            self.unopened = True
            self.tell(number, f"a session begins with open, and this is a {verb}")
        accesses, repeat = accesses_of(verb, words)
        self.add(file_of(accesses), repeat)

    def add(self, records, repeat=1):
        """Adds records so many times, if they fit."""
        before, more = self.size, len(records) * repeat
        self.size += more
        if not self.loose and self.size > LONGEST:
            if before <= LONGEST:
                raise Fault(f"the session grows to {self.size:,} bytes here, and {LONGEST:,} is the most")
        elif repeat > 1 and more > MOST_REPEATED:
            raise Fault(f"this repeat takes {more:,} bytes, and {MOST_REPEATED:,} is the most")
        else:
            self.file += records * repeat


def decoded(raw):
    """The text of a file; Bad where it is none: not UTF-8, or with a byte 00H, as every session file has one."""
    text, at = "", raw.find(b"\0")
    try:
        text = raw.decode("utf-8-sig")
    except UnicodeDecodeError as fault:
        at = fault.start if at < 0 else at
    if at < 0:
        return text
    line = raw.count(b"\n", 0, at) + 1
    raise Bad([(line, f"the byte {raw[at]:02X}H is no text (UTF-8); is this a session file already?")])


def file_from(text):
    """The session file that a text describes; Bad with every fault and its line."""
    maker = Maker()
    lines = text.split("\n")
    for number, line in enumerate(lines, 1):
        words = line.split("#", 1)[0].split()
        if words:
            maker.line(number, words)
    if not maker.faults and not maker.opened and not maker.loose:
        maker.tell(len(lines), "the text ends without an open")
    if maker.faults:
        raise Bad(maker.faults)
    return bytes(maker.file)
