"""What tools/session --annotate says of Set, Read and Write Multiple."""
import os
from unittest import mock

from cardtools import card
from cardtools.annotate import annotated
from cardtools.blocks import SIZES, Blocks
from cardtools.records import records_of
from steps import lines_of

MARK = "the interrupt mark is set"
NO_BLOCK = ". ABRT: no block is set since power-on or the last reset"


def block(size):
    return (f"write ide 2 {size:X}\nwrite ide 7 C6",)


def asked(count, lba, code):
    """A command of so many sectors from an LBA on."""
    return (f"write ide 2 {count:X}\nwrite ide 3 {lba:X}\nwrite ide 6 40\nwrite ide 7 {code}",)


def moved(code, sectors):
    """So many sectors by words, read as zeros."""
    if code == "C5":
        return (f"write word ide 0 0 x{256 * sectors}",)
    return f"read word ide 0 x{256 * sectors}", [0] * (256 * sectors)


def said(*steps, mode=1):
    """What is said after the words of an access, by its number."""
    parts = ((number, line.partition(". ")[2]) for number, line in enumerate(lines_of(mode, *steps)))
    return {number: words for number, words in parts if words}


def test_every_count_is_a_block_or_refused():
    for before, stays in ((), "there is no block, as before"), ((block(8),), "the block of 8 stays"):
        for count in range(256):
            words = said(*before, block(count))[2 * len(before) + 2]
            wanted = f"The block is {count} sector{'s' if count > 1 else ''}"
            refused = f"ABRT: Sector Count is {count}, and a block has 1, 2, 4, 8 or 16 sectors; {stays}"
            assert words == (wanted if count in (1, 2, 4, 8, 16) else refused), (count, words)


def test_no_block_and_what_forgets_one():
    for code in ("C4", "C5"):
        for before in ((), (block(3),), (block(8), ("write ide 16 4\nwrite ide 16 0",))):
            assert lines_of(1, *before, asked(1, 0xFF, code))[-1].endswith(NO_BLOCK), before
        for between in ((), ("write ide 7 90",), ("write ide 2 5\nwrite ide 6 2\nwrite ide 7 91",), ("write ide 7 FF",), ("write ide 16 2",), block(0)):
            assert "in blocks of 8" in lines_of(1, block(8), between or ("read ide 7", [0x50]), asked(1, 0, code))[-1], between
    assert said(block(8), ("write ide 16 4\nwrite ide 16 0",), ("write ide 16 4\nwrite ide 16 0",)) == {2: "The block is 8 sectors", 4: "The block of 8 is forgotten"}


def test_sreset_forgets_the_block_and_another_map_does_not():
    set_it, ask = ("write memory 2 4\nwrite memory 7 C6",), ("write memory 7 C4",)
    kept = said(set_it, ("write attribute 200 1",), ("write io 2 1\nwrite io 7 C4",), mode=0)
    assert kept == {2: "The block is 4 sectors", 5: f"1 sector in blocks of 4; block 1 begins, {MARK}"}, kept
    lines = lines_of(0, set_it, ("write attribute 200 80\nwrite attribute 200 0",), ask)
    assert lines[4].endswith(". The block of 4 is forgotten") and lines[5].endswith(NO_BLOCK), lines


def test_a_mark_for_each_block():
    for size in SIZES:
        for count in range(1, 7):
            blocks = -(-count // size)
            for code, end in (("C4", ""), ("C5", ", the interrupt mark is set")):
                words = list(said(block(size), asked(count, 0, code), moved(code, count)).values())[1:]
                assert len(words) == count + 1 and sum(MARK in word for word in words) == blocks, (size, count, words)
                assert [f"of block {place // size + 1}" in word for place, word in enumerate(words[1:])] == [True] * count, words
                assert words[-1].endswith(f", the last of block {blocks}; the command ends{end}"), words
                assert [MARK in word for word in words[1:-1]] == [place % size == 0 for place in range(1, count)], words


def test_which_sector_of_which_block():
    words = said(block(4), asked(6, 10, "C4"), moved("C4", 6))
    assert words == {
        2: "The block is 4 sectors",
        6: f"6 sectors in blocks of 4; block 1 begins, {MARK}",
        262: "Sector 1 of 6 is read, number 1 of block 1",
        518: "Sector 2 of 6 is read, number 2 of block 1",
        774: "Sector 3 of 6 is read, number 3 of block 1",
        1030: f"Sector 4 of 6 is read, the last of block 1; block 2 begins, {MARK}",
        1286: "Sector 5 of 6 is read, number 1 of block 2",
        1542: "Sector 6 of 6 is read, the last of block 2; the command ends",
    }, words


def test_count_0_is_256_sectors():
    assert said(block(16), asked(0, 0, "C4"))[6].startswith("256 sectors in blocks of 16; ")


def test_a_sector_that_is_not_there():
    for code, done in (("C4", "read"), ("C5", "stored")):
        words = said(block(4), asked(8, 30, code), moved(code, 4))
        assert list(words) == [2, 6, 262, 518] and words[518] == f"Sector 2 of 8 is {done}, number 2 of block 1; the next one is not there, IDNF, the interrupt mark is set", words
        assert said(block(2), asked(3, 30, code), moved(code, 2))[518].endswith("the last of block 1; the next one is not there, IDNF, the interrupt mark is set")
        assert said(block(2), asked(1, 32, code), moved(code, 1))[6] == "The first sector is not there, IDNF, the interrupt mark is set"


def test_by_chs_the_end_is_that_of_the_current_geometry():
    last = ("write ide 2 2\nwrite ide 3 5\nwrite ide 4 1\nwrite ide 6 2\nwrite ide 7 C5",)
    reshaped = ("write ide 2 5\nwrite ide 6 2\nwrite ide 7 91",)
    assert said(block(4), reshaped, last, moved("C5", 1))[266].endswith("; the next one is not there, IDNF, the interrupt mark is set")
    assert said(block(4), reshaped, ("write ide 3 4",), ("write ide 2 2\nwrite ide 4 1\nwrite ide 6 2\nwrite ide 7 C5",), moved("C5", 2))[522].endswith("; the command ends, the interrupt mark is set")
    assert said(block(4), last)[7] == "The first sector is not there, IDNF, the interrupt mark is set"
    assert said(reshaped, ("write ide 16 4\nwrite ide 16 0",), block(4), last)[12] == "The first sector is not there, IDNF, the interrupt mark is set"


def test_what_drops_a_transfer():
    for code, done in (("C4", "read"), ("C5", "stored")):
        told = f"{'Read' if done == 'read' else 'Write'} Multiple is dropped, with 1 of 3 sectors {done}"
        begun = block(4), asked(3, 0, code), moved(code, 1)
        assert said(*begun, ("write ide 2 10\nwrite ide 7 C6",))[264] == f"{told}. The block is 2 sectors"
        assert said(*begun, ("write ide 7 3",))[263] == said(*begun, ("write ide 16 4",))[263] == told
    assert said(("write memory 2 1\nwrite memory 7 C6\nwrite memory 7 C5\nwrite attribute 200 80",), mode=0)[4] == "Write Multiple is dropped, with 0 of 1 sector stored"
    for step in ("write ide 7 20\nwrite ide 7 3", "write ide 7 30\nwrite ide 7 3", "write ide 7 E8\nwrite ide 7 3", "write ide 7 EC\nwrite ide 7 3"):
        assert not said((step,)), step


def test_sectors_by_bytes_either_half_first():
    window = [step for byte in range(0, 512, 2) for step in ((f"read memory {0x401 + byte:X}", [0]), (f"read memory {0x400 + byte:X}", [0]))]
    start = ("write memory 2 1\nwrite memory 7 C6\nwrite memory 7 C4",)
    words = said(start, *window, mode=0)
    assert list(words) == [2, 3, 515] and words[515] == "Sector 1 of 1 is read, the last of block 1; the command ends", words
    assert not {number for number in said(start, *window[:-1], mode=0) if number > 3}


def test_data_the_other_way_moves_nothing():
    wrong = ("read word ide 0 x256", [0xFFFF] * 256)
    assert list(said(block(4), asked(2, 0, "C5"), wrong, moved("C5", 1))) == [2, 6, 518]


def test_a_status_without_data_is_believed():
    assert list(said(block(4), asked(2, 0, "C4"), ("read ide 7", [0x51]), moved("C4", 1), ("write ide 7 3",))) == [2, 6]


def test_other_commands_say_nothing_and_are_followed():
    """Read Sectors, Verify and Erase leave the Count that Set Multiple then takes."""
    for code, count in (("20", 2), ("21", 2)):
        assert said(asked(3, 0, code), moved(code, 1), ("write ide 7 C6",)) == {261: f"The block is {count} sectors"}
    for code in ("40", "41", "C0"):
        assert "Sector Count is 0," in said(asked(4, 28, code), ("write ide 7 C6",))[5]
        assert said(asked(4, 29, code), ("write ide 7 C6",)) == {5: "The block is 4 sectors"}
    assert said(asked(4, 0, "90"), ("write ide 7 C6",)) == {5: "The block is 1 sector"}


def test_fold_leaves_the_last_word_of_a_sector_a_line():
    lines = lines_of(1, block(4), asked(2, 0, "C4"), moved("C4", 2), fold=True)
    assert len(lines) == 11 and all("255 times" in lines[number] for number in (7, 9)) and "Sector 2 of 2" in lines[10], lines


def test_what_is_followed_is_what_the_recorded_sessions_show():
    """Each Status and each of offsets 2 to 6 that a session read is as followed up to there."""
    shown, taken = [], Blocks.seen

    def compared(blocks, offset, value):
        if offset in (card.COMMAND, card.CONTROL):
            shown.append((bool(value & 0x08), bool(blocks.transfer)))
        elif offset in blocks.registers:
            shown.append((value, blocks.registers[offset] | (0xA0 if offset == 6 else 0)))
        return taken(blocks, offset, value)

    for name in sorted(name[:-4] for name in os.listdir("sessions") if name.endswith(".txt")):
        with mock.patch.object(Blocks, "seen", compared), open(f"sessions/{name}.session", "rb") as file, open(f"sessions/{name}.txt", encoding="ascii") as printed:
            list(annotated(*records_of(file.read()), printed.read().splitlines()))
        assert all(value == followed for value, followed in shown), (name, shown)
    print(f"       {len(shown)} reads of registers")
    assert len(shown) > 100
