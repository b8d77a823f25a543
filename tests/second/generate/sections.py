"""Mofrindi: a seeded generator of sections for comparing two readers.

batch() gives the sweeps, the named clauses, and random sections made here:
valid, grown and damaged ones, and garbage.
"""

import sys

sys.dont_write_bytecode = True

from generate.clauses_of_names import CLAUSES, from_clauses    # CLAUSES for compare_section.py
from generate.drafts import break_anything, grow, make, valid
from generate.pieces import NUMBERS, REV, SUBTYPE, TABLES, Dice, Item, seal, two
from generate.sweeps import sweeps
from generate.texts import any_language
from program.section import DCM, NTT, VCM


# -------------------------------------------------------------- random items

def random_valid(dice, table):
    return Item('valid ' + table, 'valid', valid(dice, table).whole(), 0)


def random_grown(dice, table):
    return Item('grown ' + table, 'grown', grow(dice, valid(dice, table)).whole(), 0)


def random_damaged(dice, table):
    """Damaged, length and CRC put right."""
    draft = make(dice, table)
    times = dice.between(1, 3)
    for _ in range(times):
        break_anything(dice, draft)
    rest = draft.rest()
    return Item('damaged ' + table, '%d times' % times,
                seal(draft.number, rest or b'\x00', draft.top), None)


def random_plain(dice, table):
    """Damage as a line makes it: nothing is put right."""
    section = bytearray(make(dice, table).whole())
    way = dice.below(4)
    if way == 0:
        for _ in range(dice.between(1, 4)):
            section[dice.below(len(section))] ^= 1 << dice.below(8)
        detail = 'bits'
    elif way == 1:
        del section[dice.below(len(section)):]
        detail = 'cut'
    elif way == 2:
        section += dice.bytes(dice.between(1, 9))
        detail = 'longer'
    else:
        section[dice.below(len(section))] = dice.below(256)
        detail = 'byte'
    return Item('plain damage ' + table, detail, bytes(section), None)


def garbage_byte(dice):
    """Small and border values often, so that garbage gets some way in."""
    if dice.chance(2):
        return dice.one((0, 0, 0, 1, 1, 2, 3, 4, 5, 0x80, 0x81, 0x93, 0xFF))
    return dice.below(256)


def right_head(dice, table):
    """What stands between a right header and the records, if anything."""
    if table == VCM:
        return bytes([dice.below(2) << 5, dice.below(2) << 7, 0, 0, 0, 0, dice.below(4)])
    if table == DCM:
        return two(dice.one((0, 1, 4000, 4094, 4095))) + bytes([dice.below(6)])
    if table == NTT:
        return bytes([dice.below(4)])
    return b''


def right_header(dice, table):
    """Byte 3 and the rest of a header."""
    if NUMBERS[table] == 0xC2:
        return bytes([0, dice.between(1, 255), dice.below(4), SUBTYPE[table]])
    if table == NTT:
        return b'\x00' + any_language(dice) + bytes([SUBTYPE[NTT]])
    return bytes([0, SUBTYPE[table]]) + dice.bytes(2)


def random_garbage(dice, table):
    """Anything behind a right header, sometimes a right head, CRC right."""
    size = dice.below(200) if dice.chance(10) else dice.below(50)
    header = right_header(dice, table)
    if not dice.chance(3):
        header += right_head(dice, table)
    rest = bytes(garbage_byte(dice) for _ in range(size))
    if dice.chance(3):
        rest += REV
    return Item('garbage ' + table, '%d bytes' % len(rest),
                seal(NUMBERS[table], header + rest), None)


WAYS = (random_valid, random_grown, random_damaged, random_damaged,
        random_garbage, random_plain)


def random_items(dice, count):
    for k in range(count):
        yield WAYS[k % len(WAYS)](dice, TABLES[k // len(WAYS) % len(TABLES)])


def batch(seed, count, times):
    """All sweeps, every clause so many times, then random ones.

    At least count items; a third of count are random ones in any case.
    """
    dice = Dice(seed)
    items = list(sweeps())
    items.extend(from_clauses(dice, times))
    items.extend(random_items(dice, max(count - len(items), (count + 2) // 3)))
    return items
