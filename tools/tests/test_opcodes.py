"""tools/opcodes: the page of the opcode table is what the source has, and what docs/OPCODES.md shows; its names are the CFA's."""
import os
import shutil
import subprocess
import tempfile

from cardtools import card, opcodes
from faults import fault_of

# 01, "Commands", and 02, "One", with the CFA's names; 02 leaves out the word Mode of Set Multiple Mode.
NAMES = {
    "Read Sectors": (0x20, 0x21),
    "Write Sectors": (0x30, 0x31),
    "Read Verify Sectors": (0x40, 0x41),
    "Erase Sectors": (0xC0,),
    "Identify Drive": (0xEC,),
    "Read Buffer": (0xE4,),
    "Write Buffer": (0xE8,),
    "Initialize Drive Parameters": (0x91,),
    "Execute Drive Diagnostic": (0x90,),
    "Recalibrate": range(0x10, 0x20),
    "Seek": range(0x70, 0x80),
    "Request Sense": (0x03,),
    "Set Multiple": (0xC6,),
    "Read Multiple": (0xC4,),
    "Write Multiple": (0xC5,),
}


def source():
    with open(opcodes.SOURCE, encoding="utf-8") as file:
        return file.read()


def changed(old, new):
    """The source with a change at the one place that has the text."""
    text = source()
    assert text.count(old) == 1, old
    return list(opcodes.commands_of(text.replace(old, new)))


def printed():
    done = subprocess.run(["tools/opcodes"], capture_output=True, text=True, check=False)
    assert not done.returncode and not done.stderr, done
    return done.stdout


def test_the_page_stands_in_the_docs():
    with open("docs/OPCODES.md", encoding="utf-8") as file:
        assert f"```sh\ntools/opcodes\n```\n\n```text\n{printed()}```\n" in file.read()


def test_the_names_of_all_opcodes():
    wanted = {code: name for name, codes in NAMES.items() for code in codes}
    for code, name in enumerate(opcodes.command_names()):
        assert name == wanted.get(code, "others"), f"{code:02X}H: {name}"
        assert card.command_name(code) == wanted.get(code, "no command of the card"), f"{code:02X}H"


def test_each_letter_stands_at_its_opcodes():
    header, *rows = (line[6:37].split(" ") for line in printed().splitlines())
    assert header == list("0123456789ABCDEF") and [len(row) for row in rows] == [16] * 16, rows
    letters = [letter for row in rows for letter in row]
    stand = {letter: [code for code, other in enumerate(letters) if other == letter] for letter in letters if letter != "."}
    assert sorted(stand.values()) == sorted(list(codes) for codes in NAMES.values()), stand


def test_the_page_follows_the_source():
    before = list(opcodes.page(opcodes.read()))
    after = list(opcodes.page(changed("[U, o, o, o, A, E, M,", "[o, o, o, o, Q, Q, o,")))
    assert [line for line in before if line not in after] == [before[13]], after
    assert after[13] == "CXH   . . . . Q Q . . . . . . . . . .   C4H C5H Request Sense", after[13]
    assert list(opcodes.page(changed("// Seek: seeK\n", "// Sought: the heads\n")))[8].endswith("   70H..7FH Sought")


def test_a_table_that_is_none():
    for old, new, said in (
        ("], // 3XH", "], // 2XH", "16 lines"),
        ("], // 3XH\n", "], // 3XH\n    // more\n", "17 lines"),
        ("const OPCODE_TABLE", "const OTHER", "0 opcode tables"),
        ("//   0  1  2", "//   0  2  1", "0 opcode tables"),
        ("//   0  1", "//   0  1  2  3  4  5  6  7  8  9  A  B  C  D  E  F\nconst OPCODE_TABLE: none\n];\n//   0  1", "2 opcode tables"),
        ("    [U, o,", "    [U, o, o,", "row CXH"),
        ("    [U, o,", "    [Y, o,", "row CXH"),
        ("const Q: u8", "const Y: u8", "row 0XH"),
        ("const Q: u8 = 12", "const Q: u8 = 11", "one number"),
        ("// Seek: seeK\n", "// Recalibrate: again\n", "one name"),
    ):
        fault = str(fault_of(opcodes.Fault, changed, old, new))
        assert said in fault, fault


def told_without_table(root):
    session = os.path.abspath("sessions/sample.session")
    for words, said in ((["tools/opcodes"], "opcodes: "), (["tools/session", "--text", session], "session: the names of the commands: ")):
        done = subprocess.run(words, cwd=root, capture_output=True, text=True, check=False)
        assert done.returncode == 2 and not done.stdout and done.stderr.startswith(said) and done.stderr.count("\n") == 1, done
        yield done.stderr


def test_a_source_that_is_not_there():
    with tempfile.TemporaryDirectory() as root:
        shutil.copytree("tools", os.path.join(root, "tools"), ignore=shutil.ignore_patterns("tests", "__pycache__"))
        assert all("No such file" in said for said in told_without_table(root))
        path = os.path.join(root, os.path.relpath(opcodes.SOURCE, opcodes.ROOT))
        os.makedirs(os.path.dirname(path))
        with open(path, "wb") as file:
            file.write(b"\xff")
        assert all("not a text" in said for said in told_without_table(root))


def test_streams_that_fail_are_told():
    for words in (["tools/opcodes"], ["tools/opcodes", "--help"]):
        with open("/dev/full", "wb") as full:
            done = subprocess.run(words, stdout=full, stderr=subprocess.PIPE, text=True, check=False)
        assert done.returncode == 2 and done.stderr == "opcodes: standard output: No space left on device\n", done


def test_a_wrong_call():
    done = subprocess.run(["tools/opcodes", "x"], capture_output=True, text=True, check=False)
    assert done.returncode == 2 and done.stderr == "opcodes: unrecognized arguments: x; see tools/opcodes --help\n", done
