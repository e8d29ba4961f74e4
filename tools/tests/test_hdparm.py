"""hdparm, a tool of others, on the Identify that a session reads."""
import shutil
import subprocess

from cardtools.annotate import parted
from cardtools.records import records_of

SESSION = "sessions/identify-whole"
CORRECT = "Checksum: correct"


def bytes_read(width):
    """What the session's data reads of this width printed, as bytes."""
    with open(f"{SESSION}.session", "rb") as file, open(f"{SESSION}.txt", encoding="ascii") as printed:
        accesses, lines = records_of(file.read())[0][1:], printed.read().splitlines()[1:]
    values = (parted(line, 0)[3] for access, line in zip(accesses, lines)
              if not access.write and access.address == 0 and access.width == width)
    return b"".join(value.to_bytes(width, "little") for value in values)


def says_correct(tool, data):
    words = "\n".join(f"{data[i] + 256 * data[i + 1]:04x}" for i in range(0, 512, 2))
    done = subprocess.run([tool, "--Istdin"], input=f"{words}\n", capture_output=True, text=True, check=False)
    assert "CompactFlash ATA device" in done.stdout, done
    return CORRECT in done.stdout.splitlines()


def test_what_hdparm_says_of_the_identify_of_a_session_where_it_is_installed():
    read = [bytes_read(width) for width in (2, 1)]
    assert [len(data) for data in read] == [512, 512] and read[0] != read[1]
    tool = shutil.which("hdparm") or shutil.which("hdparm", path="/usr/sbin:/sbin")
    if tool is None:
        print("       hdparm is not installed: not asked")
        return
    for data in read:
        assert says_correct(tool, data)
        for place in (2, 108, 510, 511):
            wrong = bytearray(data)
            wrong[place] ^= 0x10
            assert not says_correct(tool, wrong), place
    print(f"       {tool} prints '{CORRECT}' of both")
