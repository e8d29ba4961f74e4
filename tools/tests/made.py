"""Session files for the tests, from a fixed seed; and small programs."""
import os
import random

from cardtools.records import LONGEST, Access, Opening, file_of

PLACES = {
    0: (0x000, 0x001, 0x0FE, 0x1FE, 0x200, 0x201, 0x202, 0xFFFF),
    1: (0x000, 0x007, 0x00A, 0x3F7, 0x400, 0x401, 0x7FF, 0x800),
    2: (0x000, 0x008, 0x009, 0x1F0, 0x1F7, 0x3F6, 0x3F7, 0x170, 0x177, 0x376, 0x1F8),
    3: (0x00, 0x01, 0x02, 0x06, 0x07, 0x08, 0x16, 0x17, 0x18),
}


def opening(dice):
    if dice.random() < 0.8:
        return Opening(4, 2, 4, dice.randrange(2))
    return Opening(*(dice.choice((0, 1, 2, 16, 17, 255, 256, 65535)) for _ in range(4)))


def access(dice):
    space, width = dice.randrange(4), dice.choice((1, 1, 2))
    address = dice.choice(PLACES[space]) if dice.random() < 0.9 else dice.randrange(65536)
    write = dice.random() < 0.5
    value = dice.choice((0, 1, 4, 0x20, 0x30, 0xEC, 0x81, dice.randrange(256 if width == 1 else 65536))) if write else 0
    return Access(write, space, width, address, value)


def accesses(dice, most):
    """Some accesses, many of them several times in a row."""
    some = []
    while len(some) < most:
        some += [access(dice)] * dice.choice((1, 1, 1, 2, 3, 4, 9))
    return some[:most]


def well_formed(seed, count):
    """Files that are well formed: short ones, and one of the longest there can be."""
    dice = random.Random(seed)
    for number in range(count):
        most = dice.choice((0, 1, 5, 40, 400)) if number else (LONGEST - 12) // 10
        yield file_of([opening(dice), *accesses(dice, most)])


def damaged(seed, count):
    """Files with a byte changed, cut, doubled or added; and the two bounds."""
    dice = random.Random(seed)
    for file in well_formed(seed, count):
        at = dice.randrange(len(file))
        yield file[:at]
        yield file[:at] + bytes([dice.randrange(256)]) + file[at + 1:]
        yield file + file[:at]
    yield b""
    yield bytes(LONGEST)
    yield bytes(LONGEST + 1)
    yield file_of([Opening(4, 2, 4, 1)] + [Access(False, 3, 1, 7, 0)] * 4095)


def program(folder, name, script):
    """A program of this name in a folder; its path."""
    os.makedirs(folder, exist_ok=True)
    path = os.path.join(folder, name)
    with open(path, "w", encoding="utf-8") as file:
        file.write(f"#!/bin/sh\n{script}\n")
    os.chmod(path, 0o755)
    return path
