"""The text of a session file."""
from itertools import groupby

from .card import COMMAND, access_words, command_name, opening_words
from .follower import Follower
from .from_text import MODE_WORDS, SPACES
from .records import records_of, size_of

MODE_NAMES = {number: word for word, number in MODE_WORDS.items()}


def note_of(access, follower):
    """The name of what stands there, in the map in force; of a Command write the command too."""
    commands = access.write and follower.row(access) is None and follower.offset(access) == COMMAND
    return f"Command: {command_name(access.value)}" if commands else follower.name(access)


def noted_accesses(accesses, follower):
    for access in accesses:
        yield access._replace(value=0), note_of(access, follower), access.value
        follower.follow(access)


def chunks_of(values, most=8):
    """(values, how many times) for each line: four or more equal ones as a repeat, the others side by side."""
    chunks = []
    for value, equal in groupby(values):
        count = len(list(equal))
        if count > 3:
            chunks.append(([value], count))
        elif chunks and chunks[-1][1] == 1 and len(chunks[-1][0]) + count <= most:
            chunks[-1][0].extend([value] * count)
        else:
            chunks.append(([value] * count, 1))
    return chunks


def write_words(access, values):
    return "".join(f" {value:0{2 * access.width}X}" for value in values)


def access_lines(accesses, follower):
    """(line, note) for the accesses: those to one place that follow each other share a line."""
    for (access, note), group in groupby(noted_accesses(accesses, follower), key=lambda noted: noted[:2]):
        values = [value for _, _, value in group]
        if not access.write:
            yield access_words(access, SPACES) + repeat_words(len(values)), note
            continue
        for some, times in chunks_of(values):
            yield access_words(access, SPACES) + write_words(access, some) + repeat_words(times), note


def repeat_words(times):
    return f" x{times}" if times > 1 else ""


def opening_line(opening):
    return f"open {opening.c} {opening.h} {opening.s} {MODE_NAMES.get(opening.mode, opening.mode)}"


def byte_lines(rest):
    return [f"bytes {rest[at:at + 16].hex(' ').upper()}" for at in range(0, len(rest), 16)] or ["bytes"]


def text_of(file, notes=True):
    """The text of a session file: lossless for any bytes, the broken ones as `bytes` lines."""
    records, broken = records_of(file)
    lines = []
    if records:
        lines.append((opening_line(records[0]), opening_words(records[0])))
        lines += access_lines(records[1:], Follower(records[0].mode))
    text = [f"{line:<31} # {note}" if notes and note else line for line, note in lines]
    if broken:
        text += [f"# broken at {broken.place}: {broken.why}"] * notes + byte_lines(file[size_of(records):])
    return "\n".join(text) + "\n"
