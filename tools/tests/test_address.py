"""The addresses that --annotate follows: what remains from one on, and the next one."""
import itertools

from cardtools.address import Geometry, advance, remaining, reshaped


def chs(cylinder, head, sector):
    return {2: 0, 3: sector, 4: cylinder % 256, 5: cylinder >> 8, 6: 0xA0 | head}


def lba(number):
    return {2: 0, 3: number % 256, 4: number >> 8 & 255, 5: number >> 16 & 255, 6: 0xE0 | number >> 24}


def test_by_chs_each_sector_leads_to_the_next():
    for shape in (Geometry(4, 2, 4), Geometry(2, 3, 5), Geometry(300, 1, 1), Geometry(1, 16, 2)):
        registers = chs(0, 0, 1)
        for index, (cylinder, head, sector) in enumerate(itertools.product(range(shape.c), range(shape.h), range(1, shape.s + 1))):
            assert registers == chs(cylinder, head, sector), (shape, index, registers)
            assert remaining(registers, shape, shape.capacity + 2) == shape.capacity - index, (shape, index)
            advance(registers, shape)
        assert registers == chs(shape.c, 0, 1) and remaining(registers, shape, shape.capacity + 2) == 0, registers


def test_a_bad_address_by_chs_has_nothing_after_it():
    shape = Geometry(4, 2, 4)
    for cylinder, head, sector in ((0, 0, 0), (0, 0, 5), (0, 2, 1), (4, 0, 1), (9, 1, 4), (0xFFFF, 15, 255)):
        assert remaining(chs(cylinder, head, sector), shape, 32) == 0, (cylinder, head, sector)


def test_by_lba_the_end_is_that_of_the_card():
    shape = Geometry(2, 3, 5)
    for number, left in ((0, 32), (30, 2), (31, 1), (32, 0), (33, 0), (0xFFFFFFF, 0)):
        assert remaining(lba(number), shape, 32) == left, number
    for number in (0, 254, 255, 256, 65534, 65535, 0xFFFFFF):
        registers = lba(number)
        advance(registers, shape)
        assert registers == lba(number + 1), registers


def test_the_geometry_of_91h():
    assert reshaped(5, 0xA2, 32) == (2, 3, 5) and reshaped(32, 0, 32) == (1, 1, 32)
    assert reshaped(0, 0, 32) is None and reshaped(33, 0, 32) is None and reshaped(3, 0xFF, 32) is None
