"""tools/session: round trips, the faults of texts, and runs explained."""
import os
import re
import subprocess
import sys
import tracemalloc

import made
from cardtools.annotate import Mismatch, annotated
from cardtools.from_text import Bad, decoded, file_from
from cardtools.records import Access, Opening, file_of, records_of
from cardtools.to_text import text_of
from faults import fault_of

TOOL = "tools/session"
SAMPLE = "open 4 2 4 true-ide\nwrite ide 07 FF\nread ide 07\nread ide 01\nwrite ide 07 03\nread ide 01\n"
SAMPLE_PRINTED = "n op answer value\n1 W 0 00FF\n2 R 0 0051\n3 R 0 0004\n4 W 0 0003\n5 R 0 0020\n"


def same_again(file, what):
    for notes in (True, False):
        assert file_from(text_of(file, notes)) == file, f"{what} is not the same again"


def call(*words, given=b""):
    done = subprocess.run([sys.executable, TOOL, *words], input=given, capture_output=True, check=False)
    return done.returncode, done.stdout, done.stderr.decode()


def test_round_trip_of_every_file_in_sessions():
    count = 0
    for folder, _, names in os.walk("sessions"):
        for name in sorted(names):
            path = os.path.join(folder, name)
            with open(path, "rb") as file:
                same_again(file.read(), path)
            count += 1
    print(f"       {count} files in sessions/")
    assert count


def test_the_page_of_sessions_says_what_they_open():
    with open("sessions/README.md", encoding="utf-8") as file:
        page = file.read()
    names = sorted(name[:-8] for name in os.listdir("sessions") if name.endswith(".session"))
    assert sorted(re.findall(r"^\| `([\w-]+)` \|", page, re.M)) == names
    others = {}
    for name in names:
        with open(f"sessions/{name}.session", "rb") as file:
            records, _ = records_of(file.read())
        if not records or records[0][:3] != (4, 2, 4):
            others[name] = records and records[0][:3]
    assert others == {"empty": [], "no-opening": [], "too-large": (33, 1, 1)}, others
    assert "but for `empty` and `no-opening`, which have no opening, and `too-large`, which asks for C 33, H 1, S 1" in page


def test_round_trip_of_well_formed_files():
    for number, file in enumerate(made.well_formed(7, 150)):
        assert records_of(file)[1] is None
        assert "bytes" not in text_of(file), number
        same_again(file, f"well-formed file {number}")


def test_round_trip_of_damaged_files():
    for number, file in enumerate(made.damaged(11, 60)):
        same_again(file, f"damaged file {number}")


def test_text_means_these_bytes():
    text = "# a comment\n\nOPEN 4 2 4 True-IDE # another\n write  io 1F7H 20\nread memory 3F7\nread word ide 00 x3\nwrite word ide 0 1 2 x2\n"
    wanted = [Opening(4, 2, 4, 1), Access(True, 2, 1, 0x1F7, 0x20), Access(False, 1, 1, 0x3F7, 0)]
    wanted += [Access(False, 3, 2, 0, 0)] * 3 + [Access(True, 3, 2, 0, 1), Access(True, 3, 2, 0, 2)] * 2
    assert file_from(text) == file_of(wanted)
    assert file_from(SAMPLE)[:24] == bytes.fromhex("0C0001000400020004000100 0A00020003010700FF00 0800".replace(" ", ""))


def test_bytes_make_a_broken_file():
    assert file_from("open 1 1 1 0\nbytes 08 00\nread ide 0\nopen 1 1 1 0\n")[12:16] == bytes.fromhex("08000800")
    assert file_from("bytes\n") == b""


# Each kind of bad text, its line and a part of what is said.
FAULTS = (
    ("", 1, "ends without an open"),
    ("# nothing\n\n", 3, "ends without an open"),
    ("read ide 07\n", 1, "begins with open"),
    ("write ide 07 20\nopen 4 2 4 1\n", 1, "begins with open"),
    ("open 4 2 4 1\nopen 4 2 4 1\n", 2, "opened once"),
    ("open 4 2 4 1\n\nfetch ide 07\n", 3, "not 'fetch'"),
    ("open 4 2 4\n", 1, "open takes C, H, S and the mode"),
    ("open\n", 1, "here is nothing"),
    ("open 4 2 4 1 5\n", 1, "open takes C, H, S and the mode"),
    ("open 4 2 4 ide\n", 1, "the mode is pc-card, true-ide"),
    ("open 4 2 4 65536\n", 1, "the mode is 65536"),
    ("open " + 5000 * "9" + " 2 4 1\n", 1, "65535 is the most"),
    ("open 4 2 4 1\nread ide 07 x" + 5000 * "9" + "\n", 2, "a repeat is x1 to x"),
    ("open 4 two 4 1\n", 1, "H is a decimal number"),
    ("open 65536 2 4 1\n", 1, "C is 65536"),
    ("open -4 2 4 1\n", 1, "C is a decimal number"),
    ("open 4 2 4 1\nread\n", 2, "read wants a space"),
    ("open 4 2 4 1\nread word\n", 2, "read wants a space"),
    ("open 4 2 4 1\nread disk 07\n", 2, "not 'disk'"),
    ("open 4 2 4 1\nread long ide 07\n", 2, "not 'long'"),
    ("open 4 2 4 1\nread ide\n", 2, "wants an address"),
    ("open 4 2 4 1\nread ide 0G\n", 2, "the address is a hexadecimal number"),
    ("open 4 2 4 1\nread ide H\n", 2, "the address is a hexadecimal number"),
    ("open 4 2 4 1\nread ide 10000\n", 2, "FFFF is the most"),
    ("open 4 2 4 1\nread ide 07 20\n", 2, "a read ends after its address"),
    ("open 4 2 4 1\nread ide 07 x0\n", 2, "a repeat is"),
    ("open 4 2 4 1\nread ide 07 x\n", 2, "a repeat is"),
    ("open 4 2 4 1\nread ide 07 x99999\n", 2, "a repeat is"),
    ("open 4 2 4 1\nread ide x4\n", 2, "wants an address"),
    ("open 4 2 4 1\nwrite ide 07\n", 2, "write wants a value"),
    ("open 4 2 4 1\nwrite ide 07 x4\n", 2, "write wants a value"),
    ("open 4 2 4 1\nwrite ide 07 100\n", 2, "FF is the most"),
    ("open 4 2 4 1\nwrite ide 07 1 2 zz\n", 2, "the byte is a hexadecimal number"),
    ("open 4 2 4 1\nwrite word ide 00 10000\n", 2, "FFFF is the most"),
    ("open 4 2 4 1\nbytes 1\n", 2, "two hexadecimal digits"),
    ("open 4 2 4 1\nbytes 0x1F\n", 2, "two hexadecimal digits"),
    ("open 4 2 4 1\nread ide 07 x4094\nread ide 07 x2\nread ide 07\n", 3, "32,768 is the most"),
    ("open 4 2 4 1\nread ide 0x07\n", 2, "a hexadecimal number without 0x, not '0x07'"),
    ("open 4 2 4 1\nread ide " + 5000 * "9" + "\n", 2, "is 99999999999999999999.., and FFFF"),
    ("open 4 2 4 " + 5000 * "1" + " 1\n", 1, "here stands '4 2 4 1111"),
    ("open 4 2 4 1\nread\x07 ide 07\n", 2, "not 'read\\x07'"),
)


def test_each_fault_is_told_with_its_line():
    for text, line, part in FAULTS:
        faults = fault_of(Bad, file_from, text).faults
        assert faults[0][0] == line and part in faults[0][1], (text, faults)
        assert all(len(message) < 120 for _, message in faults), text


# A text, and the lines of all its faults, each with a part of what is said.
LISTS = (
    ("open 4 2 4 1\nfetch\nread ide 07\nread ide zz\nwrite ide 07\n", ((2, "fetch"), (4, "zz"), (5, "wants a value"))),
    ("open 4 2 4\nread ide 07\nread ide 07\n", ((1, "open takes"),)),
    ("open 4 2 4\nopen 4 2 4 1\nread ide 07\n", ((1, "open takes"), (2, "line 1 has an open already"))),
    ("write ide 07 20\nread ide 07\nopen 4 2 4 1\nread ide 07\n", ((1, "begins with open, and this is a write"),)),
    ("read ide 07\nopen 4 2 4 1\nopen 4 2 4 1\n", ((1, "begins with open"), (3, "line 2 has an open already"))),
    ("read\nopen 4 2 4 1\n", ((1, "begins with open"), (1, "wants a space"))),
    ("opne 4 2 4 1\nread ide 07\nread ide 07\n", ((1, "opne"), (2, "begins with open"))),
    ("open 4 2 4 1\nread ide 07 x5000\nread ide 07\nopen 4 2\n", ((2, "grows to 40,012"), (4, "line 1 has"), (4, "open takes"))),
)


def test_every_fault_of_a_text_is_told():
    for text, wanted in LISTS:
        faults = fault_of(Bad, file_from, text).faults
        assert [line for line, _ in faults] == [line for line, _ in wanted], (text, faults)
        assert all(part in said for (_, said), (_, part) in zip(faults, wanted)), (text, faults)


def test_huge_counts_are_told_and_not_made():
    """2,000 values, each 32,768 times, would take 655 million bytes."""
    for first, part in (("open 4 2 4 1", "grows to 655,360,012 bytes"), ("bytes", "this repeat takes 655,360,000 bytes")):
        tracemalloc.start()
        faults = fault_of(Bad, file_from, f"{first}\nwrite ide 07{2000 * ' 0'} x32768\n").faults
        _, most = tracemalloc.get_traced_memory()
        tracemalloc.stop()
        assert part in faults[0][1] and most < 5_000_000, (faults, most)
    assert len(file_from("bytes\nwrite ide 07 0 x32768\n")) == 327680


def test_a_file_that_is_no_text_is_told_with_its_line():
    assert fault_of(Bad, decoded, b"open 4 2 4 1\n\xff\n").faults[0][0] == 2
    assert decoded(b"\xef\xbb\xbfopen 4 2 4 1\n") == "open 4 2 4 1\n"
    for file in (file_from(SAMPLE), file_from("open 4 2 4 1\nread ide 07\n")):
        assert "is this a session file already?" in str(fault_of(Bad, decoded, file))


def test_a_text_that_is_no_session_file_is_told():
    for text in (SAMPLE, "\ufeff" + SAMPLE, "# ä\r\n" + SAMPLE, "open 4 2 4 1\n" + 3000 * "read ide 07\n"):
        records, broken = records_of(text.encode())
        assert not records and "the file is text" in broken.why and "the file is text" in text_of(text.encode()).split("\n")[0], broken
    for file in (b"", bytes(40000), b"\xff\xfe\xfd", file_from(SAMPLE)[4:]):
        assert "text" not in records_of(file)[1].why


def test_the_longest_file_is_taken():
    assert len(file_from("open 4 2 4 1\nread ide 07 x4094\n")) == 32764


def lines_of(text, printed, fold=False):
    return list(annotated(*records_of(file_from(text)), printed.splitlines(), fold))


def test_the_sample_explained():
    lines = lines_of(SAMPLE, SAMPLE_PRINTED)
    parts = ("32 sectors, True IDE", "Command: FFH, no command", "Status: 51H", "Error: 04H, ABRT", "Request Sense", "Invalid Command")
    assert len(lines) == len(parts)
    for line, printed, part in zip(lines, SAMPLE_PRINTED.splitlines(), parts):
        assert line.startswith(printed) and part in line, line


def test_every_recorded_session_explained():
    for name in sorted(name[:-4] for name in os.listdir("sessions") if name.endswith(".txt")):
        with open(f"sessions/{name}.session", "rb") as file, open(f"sessions/{name}.txt", encoding="ascii") as printed:
            lines = printed.read().splitlines()
            assert len(list(annotated(*records_of(file.read()), lines))) == len(lines), name


def test_names_follow_the_map():
    text = "open 4 2 4 pc-card\nread memory 3F7\nwrite attribute 200 42\nread io 1F7\nread memory 0\nwrite attribute 200 04\nread io 170\nwrite attribute 200 82\nread io 1F7\nwrite attribute 200 1\nread io 3F7\nread io 9\n"
    printed = "n op answer value\n1 R 0 0050\n2 W 0 0042\n3 R 0 0050\n4 R 7 0000\n5 W 10 0000\n6 R 6 0000\n7 W 0 0082\n8 R 8 0000\n9 W 0 0001\n10 R 0 0050\n11 R 0 00FF\n"
    parts = ("PC Card", "Status", "index 2", "Status", "row 7", "row 10", "row 6", "SRESET holds", "row 8", "power-on; index 1", "Status", "odd byte")
    for line, part in zip(lines_of(text, printed), parts):
        assert part in line, (line, part)


def test_what_error_holds_follows_the_commands():
    text = "open 4 2 4 1\nread ide 1\nwrite ide 7 20\nread ide 1\nwrite ide 7 3\nread ide 1\nwrite ide 16 4\nread ide 1\nwrite ide 7 20\nwrite ide 16 0\nread ide 1\n"
    printed = "n op answer value\n1 R 0 0001\n2 W 0 0020\n3 R 0 0010\n4 W 0 0003\n5 R 0 002F\n6 W 0 0004\n7 R 0 0080\n8 W 0 0020\n9 W 0 0000\n10 R 0 0001\n"
    parts = ("opening", "diagnostic", "Read Sectors", "IDNF", "Request Sense", "Address Overflow", "holds the card", "holds the card", "no effect", "power-on registers", "diagnostic")
    for line, part in zip(lines_of(text, printed), parts):
        assert part in line, (line, part)


def test_a_run_past_the_end_is_told_of_verify_and_erase():
    for opcode, told in (("20", False), ("30", False), ("40", True), ("41", True), ("C0", True), ("70", False)):
        lines = lines_of(f"open 4 2 4 1\nwrite ide 7 {opcode}\nread ide 1\n", f"n op answer value\n1 W 0 00{opcode}\n2 R 0 0010\n")
        assert "IDNF, no such sector" in lines[2] and ("the run is past the end" in lines[2]) == told, lines
    lines = lines_of("open 4 2 4 1\nwrite ide 7 40\nread ide 1\n", "n op answer value\n1 W 0 0040\n2 R 0 0040\n")
    assert "UNC" in lines[2] and "past the end" not in lines[2], lines


def test_row_11_is_taken_where_a_half_word_decides():
    lines = lines_of("open 4 2 4 1\nwrite ide 07 EC\nread ide 0\nread word ide 0\n", "n op answer value\n1 W 0 00EC\n2 R 0 008A\n3 R 11 0000\n")
    assert "a word with one half moved" in lines[3], lines
    lines = lines_of("open 4 2 4 0\nwrite memory 07 EC\nread memory 9 x2\n", "n op answer value\n1 W 0 00EC\n2 R 0 0084\n3 R 11 0000\n")
    assert "the high half has moved already" in lines[3], lines


def test_a_write_while_drq_is_set_is_told():
    text = "open 4 2 4 1\nwrite ide 7 EC\nwrite ide 2 5\nread ide 7\nwrite ide 2 5\nwrite ide 1 5\nread ide 2\nwrite ide 6 5\n{}\nwrite ide 3 5\n"
    head = "n op answer value\n1 W 0 00EC\n2 W 0 0005\n3 R 0 0058\n4 W 0 0005\n5 W 0 0005\n6 R 0 0001\n7 W 0 0005\n"
    for between, printed, told in (("read ide 16", "8 R 0 0058", True), ("write ide 16 2", "8 W 0 0002", True), ("write ide 7 20", "8 W 0 0020", False),
                                   ("write ide 16 4", "8 W 0 0004", False), ("read word ide 0", "8 R 0 848A", False)):
        lines = lines_of(text.format(between), f"{head}{printed}\n9 W 0 0005\n")
        assert [number for number in range(1, 8) if "no effect while DRQ is set" in lines[number]] == [4, 5, 7], lines
        assert ("no effect while DRQ is set" in lines[9]) == told, lines[9]


def test_count_0_and_end_marks_say_no_more_than_is_so():
    assert "0: 256 sectors for a sector command" in lines_of("open 4 2 4 1\nwrite ide 2 0\n", "n op answer value\n1 W 0 0000\n")[1]
    lines = lines_of("open 4 2 4 0\nread attribute 0\nread attribute 2\n", "n op answer value\n1 R 0 00FF\n2 R 0 00FF\n")
    assert ["end mark" in line for line in lines] == [False, True, False], lines


def test_broken_and_refused_sessions_explained():
    assert "H is 17" in lines_of("open 1 17 1 0\n", "n op answer value\nopen 1\n")[1]
    assert "33 sectors" in lines_of("open 33 1 1 2\n", "n op answer value\nopen 1\n")[1]
    for record, part in (("04 00 07 00", "kind is 7"), ("08 00 07 00", "it takes 8 bytes, and 4 are left"), ("03 00 07 00", "length is 3, and a record's"), ("04 00 03 00", "a read has 8")):
        line = lines_of(f"open 1 1 1 1\nread ide 07\nbytes {record}\n", "n op answer value\n1 R 0 0050\nbad 20\n")[2]
        assert "the record at byte 20: " in line and part in line, line
    assert "nothing of it is run" in lines_of("open 4 2 4 1\nread ide 7 x4094\nbytes 00 00 00 00 00\n", "n op answer value\nbad 32768\n")[1]
    assert "40,000 bytes" in list(annotated(*records_of(bytes(40000)), ["n op answer value", "bad 32768"]))[1]
    assert "empty" in lines_of("bytes\n", "n op answer value\nbad 0\n")[1]


def test_fold_joins_data_only():
    printed = "n op answer value\n" + "".join(f"{n} R 0 FFFF\n" for n in range(1, 7)) + "7 R 0 0050\n8 R 0 0050\n"
    lines = lines_of("open 4 2 4 1\nread word ide 0 x6\nread ide 7 x2\n", printed, fold=True)
    assert len(lines) == 4 and lines[1].startswith("1..6 R 0") and "6 times" in lines[1], lines


def test_fold_joins_nothing_in_a_reset():
    printed = "n op answer value\n1 W 0 0004\n" + "".join(f"{n} W 0 1234\n" for n in range(2, 7))
    lines = lines_of("open 4 2 4 1\nwrite ide 16 04\nwrite word ide 0 1234 x5\n", printed, fold=True)
    assert len(lines) == 7 and all("no effect" in line for line in lines[2:]), lines


# A text, printed lines after the header that are another session's, the line that is told, and a part of what is said.
IDE, PC = "open 4 2 4 true-ide\n", "open 4 2 4 pc-card\n"
TOO_LONG = "open 33 1 1 1\nread ide 07 x4094\nbytes 00 00 00 00 00\n"
OTHERS = (
    ("open 33 1 1 true-ide\nread ide 07\n", "1 R 0 0050\n", 2, "refused by row 1 (it has 33 sectors"),
    ("open 33 1 1 true-ide\nread ide 07\n", "", 2, "'open 1' is not there"),
    ("open 33 1 1 true-ide\nread ide 07\n", "open 1\n1 R 0 0050\n", 3, "more than the session has"),
    (TOO_LONG, "open 1\n", 2, "'bad 32768' is not there"),
    (IDE, "open 1\n", 2, "more than the session has"),
    (IDE + "write ide 02 05\n", "1 W 0 0006\n", 2, "the value is 0005"),
    (IDE + "write ide 02 05\n", "1 W 99 00FF\n", 2, "row 99 does not refuse this access"),
    (IDE + "read io 07\n", "1 R 7 0051\n", 2, "the value is 0000"),
    (IDE + "read io 07\n", "1 R 0 0050\n", 2, "refused by row 7"),
    (IDE + "read ide 07\n", "1 R 7 0000\n", 2, "row 7 does not refuse this access"),
    (IDE + "read ide 01\n", "1 R 11 0000\n", 2, "row 11 does not refuse this access"),
    (IDE + "read ide 00\n", "1 R 11 0000\n", 2, "row 11 does not refuse this access"),
    (IDE + "write ide 16 4\nread word ide 00\n", "1 W 0 0004\n2 R 11 0000\n", 3, "row 11 does not refuse this access"),
    (IDE + "write ide 16 4\nread ide 07\n", "1 W 0 0004\n2 R 0 0050\n", 3, "the value is 0080"),
    (IDE + "write ide 16 4\nread word ide 00\n", "1 W 0 0004\n2 R 0 0080\n", 3, "the value is 8080"),
    (IDE + "read ide 07\n", "1 R 0 0151\n", 2, "a byte is 00FF at most"),
    (IDE + "read ide 07\n", "01 R 0 0051\n", 2, "no line of an access"),
    (IDE + "read ide 08\n", "1 R 7 0000\n", 2, "refused by row 6"),
    (IDE + "read word ide 07\n", "1 R 0 5050\n", 2, "refused by row 9"),
    (PC + "write word attribute 0 1\n", "1 W 9 0000\n", 2, "refused by row 6"),
    (PC + "read word memory 9\n", "1 R 11 0000\n", 2, "refused by row 9"),
    (PC + "write attribute 200 44\n", "1 W 0 0044\n", 2, "refused by row 10"),
    (PC + "write attribute 200 80\nread word io 0\n", "1 W 0 0080\n2 R 7 0000\n", 3, "refused by row 8"),
    (PC + "write attribute 200 42\nread attribute 200\n", "1 W 0 0042\n2 R 0 0002\n", 3, "the value is 0042"),
    (PC + "read attribute 10\n", "1 R 0 0000\n", 2, "the value is 00FF"),
)


def test_output_of_another_session_is_told_with_its_line():
    for printed, part in (("", "line 1"), ("n op\n", "line 1"), (SAMPLE_PRINTED[:40], "line 4"), (SAMPLE_PRINTED + "6 R 0 0000\n", "line 7"),
                          (SAMPLE_PRINTED.replace("3 R", "3 W"), "line 4"), (SAMPLE_PRINTED.replace("2 R 0 0051", "oops"), "line 3"),
                          ("n op answer value\nopen 1\n", "line 2"), ("n op answer value\nopen " + 5000 * "9" + "\n", "line 2"),
                          ("n op answer value\n" + 5000 * "1" + " W 0 00FF\n", "line 2")):
        fault = fault_of(Mismatch, lines_of, SAMPLE, printed)
        assert part in str(fault), fault
    for text, printed, line, part in OTHERS:
        fault = str(fault_of(Mismatch, lines_of, text, "n op answer value\n" + printed))
        assert fault.startswith(f"printed line {line}: ") and part in fault, (text, printed, fault)


def test_the_command_itself():
    status, file, _ = call(given=SAMPLE.encode())
    assert status == 0 and file == file_from(SAMPLE)
    status, text, _ = call("--text", "--bare", given=file)
    assert status == 0 and text.decode() == SAMPLE
    status, _, said = call(given=b"open 4 2 4 1\nread ide\n")
    assert status == 1 and said.startswith("standard input:2: "), said
    status, text, _ = call("--annotate", "--run", "printf '" + SAMPLE_PRINTED.replace("\n", "\\n") + "'", given=file)
    assert status == 0 and text.decode().count("\n") == 6
    kept = ["--annotate", "sessions/sample.session", "--printed"]
    status, text, _ = call(*kept, "sessions/sample.txt")
    assert status == 0 and text.decode().count("\n") == 6
    status, _, said = call(*kept, "sessions/identify.txt")
    assert status == 1 and "printed line " in said, said
    assert call("--help")[0] == 0 and b"usage:" in call("--help")[1]


def test_wrong_calls_are_told():
    for words in (("--bare",), ("--text", "--annotate"), ("--fold",), ("a", "b"), ("--what",), ("no such file",), ("--annotate", "--run", "no-such-command"),
                  ("--annotate", "--run", "true"), ("--annotate", "--run", "a 'b"), ("--text", "-o", "x"), ("--annotate", "--printed", "no such file"),
                  ("--run", ""), ("--annotate", "--run", ""), ("--annotate", "--run", " "), ("--annotate", "sessions/sample.session", "--printed", ""),
                  ("docs/examples/sample.txt", "-o", ""), ("",), ("--text", "--run", ""), ("--annotate", "-", "--printed", "-"), ("--annotate", "--printed", "-")):
        status, _, said = call(*words)
        assert status == 2 and said.startswith("session: "), (words, status, said)


def test_closed_and_full_streams_are_told():
    printing = ("docs/examples/sample.txt", "--text sessions/sample.session", "--help", "--annotate sessions/sample.session --printed sessions/sample.txt")
    for streams, part, calls in (("> /dev/full", "standard output: No space", printing), (">&-", "standard output: ", printing),
                                 ("<&-", "standard input: ", ("", "--text", "--annotate"))):
        for words in calls:
            done = subprocess.run(f"{sys.executable} {TOOL} {words} {streams}", shell=True, capture_output=True, text=True, check=False)
            assert done.returncode == 2 and done.stderr.startswith(f"session: {part}") and done.stderr.count("\n") == 1, (words, streams, done)
