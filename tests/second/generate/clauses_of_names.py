"""Mofrindi: the named clauses, continued: those that only names (0xC3, request 2026-01) have.

CLAUSES is whole once this file is read: take it, and from_clauses(), from here.
"""

from generate.clauses_0_to_8 import CLAUSES, clause, in_one, not_there, on, put
from generate.clauses_9_to_11 import front_and_behind
from generate.drafts import hurt_zero, rename
from generate.pieces import Item, seal, two
from generate.texts import (ALONE, MOST_NAME, OTHER_LANGUAGES, RESERVED, SIXTEEN_BIT, WITH_LENGTH, WRONG, any_language,
                            block, text_of, wrong_text)

NAMES = 'NTT'
# On the right side of a row that is marked reserved in Table 7.3, and of the three kinds of blocks.
BORDERS = (0x00, 0x06, 0x09, 0x10, 0x20, 0x27, 0x30, 0x33, 0x3F, 0xA0, 0xFF)


def name_is(give):
    """An edit: some record has the name that give(dice) makes."""
    return in_one('record', lambda dice, draft, at: rename(draft.parts[at].data, give(dice)))


def as_block(mode):
    """With an even number of bytes, so that all modes can have it."""
    return lambda dice: block(mode, dice.bytes(2 * dice.below(4)))


def of_size(size):
    return lambda dice: text_of(dice, size)


def effectors(dice):
    return bytes(dice.one(ALONE) for _ in range(dice.between(1, 9)))


def language_is(language):
    return put('header', 1, language)


# 0: reads right.

for _mode in BORDERS:
    on(0, 'a block of mode 0x%02X' % _mode, NAMES, name_is(as_block(_mode)))
for _mode in (0x40, 0x80, 0x9F):
    on(0, 'the byte 0x%02X alone' % _mode, NAMES, name_is(lambda dice, mode=_mode: bytes([mode])))
    on(0, 'the byte 0x%02X before a block' % _mode, NAMES,
       name_is(lambda dice, mode=_mode: bytes([mode]) + block(0, dice.bytes(dice.below(6)))))
on(0, 'effectors alone', NAMES, name_is(effectors))
on(0, 'a block of no bytes', NAMES, name_is(lambda dice: block(0, b'')))
on(0, '16 bits of no bytes', NAMES, name_is(lambda dice: block(SIXTEEN_BIT, b'')))
on(0, 'an effector without parameters', NAMES, name_is(lambda dice: block(dice.one(WITH_LENGTH), b'')))
on(0, 'reserved modes inside a block', NAMES, name_is(lambda dice: block(0, RESERVED)))
on(0, 'a name of 255 bytes', NAMES, name_is(of_size(MOST_NAME)))
on(0, 'a block of 253 bytes', NAMES, name_is(lambda dice: block(0, dice.bytes(253))))
on(0, '16 bits of 252 bytes', NAMES, name_is(lambda dice: block(SIXTEEN_BIT, dice.bytes(252))))
on(0, 'number 0', NAMES, put('record', 1, two(0)))
on(0, 'number 65,535', NAMES, put('record', 1, two(0xFFFF)))
on(0, 'an application', NAMES, put('record', 0, b'\x80'))
for _language in OTHER_LANGUAGES:
    on(0, 'language %s' % _language.hex(), NAMES, language_is(_language))


# 7 and 8.

def header_of(last, byte_3=0):
    """The header whole, with this byte of medium and subtype, and nothing behind it."""
    return lambda dice: seal(0xC3, bytes([byte_3]) + any_language(dice) + bytes([last(dice)]))


def cut_record(draft, at, keep):
    """The section ends behind so many bytes of the record."""
    del draft.parts[at].data[keep:]
    del draft.parts[at + 1:]


def wrong_and_cut(dice, draft, at, how):
    """A name that is wrong and says one byte more than there is."""
    data = draft.parts[at].data
    rename(data, wrong_text(dice, how))
    data[3] += 1
    cut_record(draft, at, len(data))


clause(7, '7 and the record count not there: 7 wins, NTT', header_of(lambda dice: 0x10 | dice.below(256)))
clause(7, '7 and zero bits of byte 3, no record count: 7 wins, NTT', header_of(lambda dice: 7, 0x20))
clause(8, 'record count not there, NTT', header_of(lambda dice: 6))
on(8, 'name length 255, the bytes not there', NAMES, put('record', 3, b'\xFF'), records=1, lists='empty', others=0)
on(8, 'the name not there', NAMES, in_one('record', lambda dice, draft, at: cut_record(draft, at, 4)))
on(8, 'name length not there', NAMES, in_one('record', lambda dice, draft, at: cut_record(draft, at, 3)))
for _how in sorted(WRONG):
    on(8, 'text: %s, and the name runs into the CRC: 8 wins' % _how, NAMES,
       in_one('record', lambda dice, draft, at, how=_how: wrong_and_cut(dice, draft, at, how)))


# 9 and 10.

on(9, '9 in the header, record count not there: 9 wins', NAMES,
   front_and_behind('header', hurt_zero, 'total', not_there))
for _how in sorted(WRONG):
    on(9, '9 and text: %s: 9 wins' % _how, NAMES,
       in_one('record', hurt_zero,
              lambda dice, draft, at, how=_how: rename(draft.parts[at].data, wrong_text(dice, how))))
    on(10, 'text: %s' % _how, NAMES, name_is(lambda dice, how=_how: wrong_text(dice, how)))
for _mode in RESERVED:
    on(10, 'reserved mode 0x%02X' % _mode, NAMES, name_is(as_block(_mode)))
on(10, 'no bytes, one record', NAMES, name_is(lambda dice: b''), records=1)
on(10, 'a reserved mode behind an effector', NAMES, name_is(lambda dice: b'\x83' + block(dice.one(RESERVED), b'')))
on(10, '16 bits of one byte', NAMES, name_is(lambda dice: block(SIXTEEN_BIT, dice.bytes(1))))
on(10, '16 bits of 253 bytes', NAMES, name_is(lambda dice: block(SIXTEEN_BIT, dice.bytes(253))))
on(10, 'a block short by one, the next bytes would fill it', NAMES,
   name_is(lambda dice: bytes([0, 4]) + dice.bytes(3)), lists='some')


def from_clauses(dice, times):
    """Every clause so many times."""
    for each in CLAUSES:
        for _ in range(times):
            yield Item('clauses of %d' % each.answer,
                       '%d: %s' % (each.answer, each.name),
                       each.make(dice), each.answer)
