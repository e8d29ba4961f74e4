"""What tools/session --annotate says of an Identify."""
from steps import lines_of

WHOLE = "Identify is read whole: its 512 bytes give "
WORDS = [0x848A] + [0] * 46 + [0x0010] + [0] * 207 + [0x3DA5]  # 84H + 8AH + 10H + A5H + 3DH is 2 times 256
BYTES = [byte for word in WORDS for byte in (word % 256, word // 256)]
MOST = "Word 47 of Identify, most sectors of a block: "
BAD = "Word 129 of Identify, bad sectors: "
BEFORE, LAST = ("read word ide 0 x255", WORDS[:-1]), ("read word ide 0", WORDS[-1:])
ECH = ("write ide 7 EC",)


def verdicts(mode, *steps):
    """What is said of whole Identifies, each with the number of its access."""
    return [(number, line.split(WHOLE)[1]) for number, line in enumerate(lines_of(mode, *steps)) if WHOLE in line]


def test_a_whole_identify_is_summed_however_it_was_read():
    odd_first = [step for i in range(0, 512, 2) for step in (("read memory 9", BYTES[i + 1:i + 2]), ("read memory 8", BYTES[i:i + 1]))]
    window = [step for i in range(0, 512, 2) for step in (("read memory 400", BYTES[i:i + 1]), ("read memory 7FF", BYTES[i + 1:i + 2]))]
    assert verdicts(1, ECH, BEFORE, LAST) == [(257, "0")]
    assert verdicts(1, ECH, ("read ide 0 x512", BYTES)) == [(513, "0")]
    assert verdicts(0, ("write memory 7 EC",), *odd_first) == verdicts(0, ("write memory 3F7 EC",), *window) == [(513, "0")]


def test_a_sum_that_is_not_0_and_a_low_byte_that_is_not_A5H_are_told():
    assert verdicts(1, ECH, ("read word ide 0 x256", [0x848B] + WORDS[1:])) == [(257, "01H, not 0")]
    assert verdicts(1, ECH, BEFORE, ("read word ide 0", [0x3CA5])) == [(257, "FFH, not 0")]
    assert verdicts(1, ECH, BEFORE, ("read word ide 0", [0xA53D])) == [(257, "0, and the low byte of word 255 is 3DH, not A5H")]
    assert verdicts(1, ECH, ("read word ide 0 x256", [0xFFFF] * 256)) == [(257, "0, and the low byte of word 255 is FFH, not A5H")]


def test_what_comes_between_and_ends_nothing():
    asides = (("read ide 7", [0x58]), ("read ide 16", [0x58]), ("read ide 7 x2", [0x80, 0x58]), ("write ide 2 5",), ("write word ide 0 1234",), ("write ide 0 12",), ("write ide 16 2",), ("read ide 9", 6))
    for aside in asides:
        assert [said for _, said in verdicts(1, ECH, aside, BEFORE, aside, LAST)] == ["0"], aside
    halves = ("read memory 8", BYTES[:1]), ("read word memory 8", 11), ("read memory 9", BYTES[1:2])
    assert verdicts(0, ("write memory 7 EC",), *halves, ("read word memory 8 x255", WORDS[1:])) == [(259, "0")]
    for option, place in (("41", "io 8"), ("2", "io 1F0"), ("40", "memory 0"), ("4", "memory 0")):
        refused = [10] if option == "4" else []
        assert verdicts(0, ("write memory 7 EC",), ("read word memory 0 x255", WORDS[:-1]), (f"write attribute 200 {option}", *refused), (f"read word {place}", WORDS[-1:])) == [(258, "0")], option


def test_what_ends_an_identify():
    again = ("read word ide 0 x256", [0xFFFF] * 256)
    for end in (("write ide 7 E4",), ("write ide 7 3",), ("write ide 16 4\nwrite ide 16 0",)):
        assert not verdicts(1, ECH, BEFORE, end, again), end
    assert not verdicts(1, ECH, BEFORE)
    assert not verdicts(1, ("write ide 16 4",), ECH, ("write ide 16 0",), again)
    assert not verdicts(0, ("write memory 7 EC",), ("read word memory 0 x255", WORDS[:-1]), ("write attribute 200 80\nwrite attribute 200 0",), ("read word memory 0", [0xFFFF]))


def test_a_status_without_data_is_told():
    for place, status in (("7", 0x51), ("16", 0x50), ("7", 0)):
        last = lines_of(1, ("read ide 7", [0x50]), ECH, (f"read ide {place}", [status]), ("read ide 7", [0x58]), ("read word ide 0 x256", [0xFFFF] * 256))[-1]
        assert last.endswith(f". 512 bytes were read after ECH, though Status was {status:02X}H, without DRQ: they give 0, and the low byte of word 255 is FFH, not A5H"), last
    assert len(verdicts(1, ECH, ("read ide 7", [0x50]), ECH, BEFORE, LAST)) == 1


def named(mode, *steps):
    """What is said of word 129, each time with the number of the access."""
    return [(number, line.split(BAD)[1]) for number, line in enumerate(lines_of(mode, *steps)) if BAD in line]


def test_the_number_of_bad_sectors_is_named():
    words = WORDS[:129] + [0x0012] + WORDS[130:-1] + [0x2BA5]  # 12H more: as much less in the high byte
    data = [byte for word in words for byte in (word % 256, word // 256)]
    assert named(1, ECH, ("read word ide 0 x256", words)) == [(131, "18")]
    assert verdicts(1, ECH, ("read word ide 0 x256", words)) == [(257, "0")]
    assert named(1, ECH, ("read ide 0 x512", data)) == [(261, "18")]
    halves = ("read memory 9", data[259:260]), ("read memory 8", data[258:259])
    assert named(0, ("write memory 7 EC",), ("read word memory 8 x129", words[:129]), *halves, ("read memory 7", [0x58])) == [(132, "18")]
    assert named(1, ECH, ("read word ide 0 x130", words[:130]), ("read ide 7", [0x58]), ECH, ("read word ide 0 x130", WORDS[:130])) == [(131, "18"), (263, "0")]
    assert not named(1, ECH, ("read word ide 0 x129", words[:129]), ("read ide 7", [0x58]))
    assert not named(1, ECH, ("read ide 7", [0x50]), ("read word ide 0 x256", [0xFFFF] * 256))
    assert not named(1, ("write ide 7 E4",), ("read word ide 0 x256", words))


def test_more_bad_sectors_than_sectors_are_told():
    for value, said in ((32, "32"), (33, "33, more than there are sectors"), (0x0103, "259, more than there are sectors")):
        assert named(1, ECH, ("read word ide 0 x130", WORDS[:129] + [value])) == [(131, said)]


def test_the_most_sectors_of_a_block_are_named():
    for word, said in ((0x0010, "16"), (0x0000, "0, and the word is 0000H, not 0010H"), (0x8010, "16, and the word is 8010H, not 0010H")):
        lines = lines_of(1, ECH, ("read word ide 0 x48", WORDS[:47] + [word]))
        assert [number for number, line in enumerate(lines) if "Word 47" in line] == [49], lines
        assert lines[49].endswith(f". {MOST}{said}"), lines[49]
    by_bytes = lines_of(1, ECH, ("read ide 0 x96", BYTES[:96]))
    assert by_bytes[97].endswith(f"{MOST}16") and MOST not in by_bytes[96], by_bytes[96:]
    assert not [line for line in lines_of(1, ECH, ("read ide 7", [0x50]), ("read word ide 0 x48", [0xFFFF] * 48)) if MOST in line]


def test_each_identify_is_summed_once():
    assert verdicts(1, ECH, BEFORE, LAST, ("read word ide 0 x256", [0xFFFF] * 256)) == [(257, "0")]
    assert verdicts(1, ECH, ("read ide 0", [0x8A]), ECH, ("read ide 0 x512", BYTES)) == [(515, "0")]
    assert verdicts(1, ECH, BEFORE, LAST, ECH, BEFORE, ("read word ide 0", [0x3EA5])) == [(257, "0"), (514, "01H, not 0")]


def test_fold_leaves_what_is_said_a_line():
    folded = lines_of(1, ECH, BEFORE, LAST, fold=True)
    assert len(folded) == 8 and "47 times" in folded[2] and folded[3].endswith(f"{MOST}16"), folded
    assert "81 times" in folded[4] and folded[5].endswith(f"{BAD}0"), folded
    assert "125 times" in folded[6] and folded[7].endswith(f"{WHOLE}0"), folded
