"""Mofrindi: self test of text.py, and of section.py on names.

Run with: python3 tests/second/selftest/test_names.py

Texts and sections whose answers follow by hand from request 2026-01, and from 5.2 and 7.1 of document 003.
Prints one line; exit 1 if any is wrong.
"""

import os
import sys

sys.dont_write_bytecode = True
sys.path.insert(0, os.path.dirname(os.path.dirname(os.path.abspath(__file__))))

from generate import texts
from generate.pieces import Dice
from program import section as reading, text
from selftest import test_examples as examples
from selftest.test_examples import REV

ENG = '65 6E 67'
ONE = '00 03 4F 6E 65'          # "One" in mode zero

# Table 7.3, mode by mode, from 0x00 to 0x3F: a point for each that is marked reserved.
MODES = ('+++++++..+++++++' '+...............' '++++++++........' '++++...........+')


# ------------------------------------------------------------------------- texts

# (hex, whether it is good)
TEXTS = [
    (ONE, True), ('', False), ('00', False), ('00 00', True), ('00 01', False), ('00 01 41', True),
    ('00 01 41 30', False), ('00 01 41 42', True), ('00 02 41', False), ('00 00 00', False), ('00 00 00 00', True),
    ('00 01 41 00 01 42', True),
    ('00 01 41 00 02 42', False), ('00 01 41 00', False), ('00 01 41 07 00', False), ('00 02 07 08', True),
    ('3F', False), ('3F 00', True), ('3F 01 41', False), ('3F 02 04 16', True), ('3F 02 04', False),
    ('3F 03 04 16 04', False), ('3F 03 04 16', False), ('3F 04 04 16 04 17', True), ('3F FD' + '00' * 253, False),
    ('3F FC' + '00' * 252, True), ('00 FD' + '00' * 253, True), ('00 FE' + '00' * 253, False),
    ('40', True), ('7F', True), ('80', True), ('88', True), ('89', True), ('9F', True), ('40 9F 83', True),
    ('40 00', False), ('40 00 00', True), ('9F 01 41', False), ('83' + ONE + '84', True), ('83 84 07', False),
    ('A0', False), ('A0 00', True), ('A0 01', False), ('A0 01 07', True), ('FF 00', True), ('FF 02 3F 01', True),
    ('FF 02 3F', False), ('FF', False), ('BF 03 00 00 00', True), ('A0 00 3F 01 00', False), ('A0 00 A0 00', True),
    ('40' * 255, True), (ONE + '3F 02 04 16 80 A0 01 AA 10 00', True),
]


def text_cases():
    for given, good in TEXTS:
        yield 'text %s' % given[:40], text.is_good(bytes.fromhex(given)), good
    for mode in range(256):
        fits = mode > 0x3F and not 0x40 <= mode <= 0x9F or mode <= 0x3F and MODES[mode] == '+'
        yield 'mode %02X' % mode, text.is_good(bytes([mode, 2, 0x41, 0x42])), fits
        yield 'mode %02X, no bytes' % mode, text.is_good(bytes([mode, 0])), fits
        yield 'mode %02X alone' % mode, text.is_good(bytes([mode])), 0x40 <= mode <= 0x9F
        yield 'mode %02X, odd' % mode, text.is_good(bytes([mode, 1, 0x41])), fits and mode != 0x3F
    for length in range(254):
        yield '3F of %d' % length, text.is_good(bytes([0x3F, length]) + bytes(length)), length % 2 == 0


def generated():
    """The generator's own texts: right and wrong, by what it says is wrong."""
    dice = Dice(11)
    for size in range(1, 256):
        made = texts.text_of(dice, size)
        yield 'made, %d' % size, (text.is_good(made), len(made)), (True, size)
    for most in (1, 2, 3, 9, 24, 255) * 20:
        made = texts.any_text(dice, most)
        yield 'made, at most %d' % most, (text.is_good(made), 1 <= len(made) <= most), (True, True)
    for how in sorted(texts.WRONG) * 20:
        yield 'made wrong: %s' % how, text.is_good(texts.wrong_text(dice, how)), False
    yield 'reserved', [mode for mode in range(0x40) if MODES[mode] == '.'], list(texts.RESERVED)
    for language in texts.OTHER_LANGUAGES + (b'eng',) * 40:
        yield 'another language', texts.another_language(dice, language) != language, True


# ------------------------------------------------------------------------- sections

def ntt(rest, language=ENG, **more):
    return examples.whole(0xC3, '00 %s 06 %s' % (language, rest), **more)


def record(name, flags='00', number='12 34', length=None, behind='00'):
    """A record of names with an empty list behind it."""
    size = len(bytes.fromhex(name)) if length is None else length
    return '%s %s %02X %s %s' % (flags, number, size, name, behind)


def one(name, **more):
    return ntt('01' + record(name, **more) + REV)


# (what, section, answer)
ANSWERS = [
    ('a name', one(ONE), 0), ('an application', one(ONE, flags='80'), 0), ('number 0', one(ONE, number='00 00'), 0),
    ('no records', ntt('00' + REV), 0), ('two records', ntt('02' + record(ONE) + record('80') + REV), 0),
    ('a list', one(ONE, behind='02 40 00 93 01 AA'), 0), ('255 bytes', one('40' * 255), 0),
    ('reserved bits of byte 1 off', ntt('01' + record(ONE) + REV, byte1=0), 0),
    ('longer revision', ntt('01' + record(ONE) + '93 05 05 00 01 AA BB'), 0),

    # 7, and 8 standing for it in 8 to 11 bytes, whatever the zero bits are.
    ('8 bytes', examples.whole(0xC3, '00'), 8), ('9 bytes', examples.whole(0xC3, '00 65'), 8),
    ('10 bytes', examples.whole(0xC3, '00 65 6E'), 8), ('11 bytes', examples.whole(0xC3, '00' + ENG), 8),
    ('8 bytes, zero bits', examples.whole(0xC3, 'E0', byte1=0xC0), 8),
    ('11 bytes, zero bits', examples.whole(0xC3, 'E0' + ENG, byte1=0xC0), 8),
    ('protocol 1 in 8 bytes', examples.whole(0xC3, '01'), 6),
    ('12 bytes, no record count', examples.whole(0xC3, '00' + ENG + '06'), 8),
    ('12 bytes, zero bit of byte 1', examples.whole(0xC3, '00' + ENG + '06', byte1=0x70), 9),
    ('12 bytes, zero bit of byte 3', examples.whole(0xC3, '20' + ENG + '06'), 9),
    ('12 bytes, subtype 5', examples.whole(0xC3, '20' + ENG + '05', byte1=0x70), 7),
    ('12 bytes, medium 1', examples.whole(0xC3, '00' + ENG + '16'), 7),
    ('13 bytes, no records', examples.whole(0xC3, '00' + ENG + '06 00'), 11),
    ('13 bytes, one record', examples.whole(0xC3, '00' + ENG + '06 01'), 8),

    # 8 before 9 before 10 in a record, whose name is part of it.
    ('the flags alone', ntt('01 7F'), 8), ('three bytes', ntt('01 7F 12 34'), 8), ('no name', ntt('01 00 12 34 01'), 8),
    ('name short by one', ntt('01 00 12 34 05 00 03 4F 6E'), 8),
    ('name short by one, zero bit', ntt('01 01 12 34 05 00 03 4F 6E'), 8),
    ('name short by one, reserved mode', ntt('01 00 12 34 05 07 03 4F 6E'), 8),
    ('no name, zero bit', ntt('01 01 12 34 01'), 8),
    ('zero bit', one(ONE, flags='40'), 9), ('zero bit of an application', one(ONE, flags='81'), 9),
    ('zero bit and reserved mode', one('07 00', flags='01'), 9), ('zero bit and no text', one('', flags='01'), 9),
    ('zero bit, no descriptor count', ntt('01' + record(ONE, flags='01', behind='')), 9),
    ('no text', one(''), 10), ('no text, no descriptor count', ntt('01' + record('', behind='')), 10),
    ('reserved mode, no descriptor count', ntt('01' + record('07 00', behind='')), 10),
    ('no descriptor count', ntt('01' + record(ONE, behind='')), 8),
    ('a descriptor short', ntt('01' + record(ONE, behind='01 40 01')), 8),
    ('the second record wrong', ntt('02' + record(ONE) + record('3F 01 41') + REV), 10),
    ('10 in front of 9', ntt('02' + record('07 00') + record(ONE, flags='01') + REV), 10),
    ('9 in front of 10', ntt('02' + record(ONE, flags='01') + record('07 00') + REV), 9),
    ('10 in front of 8', ntt('02' + record('3F 01 41')), 10), ('8 behind', ntt('02' + record(ONE)), 8),
    ('name length one too small', one(ONE, length=4), 10), ('name length one too large', one(ONE, length=6), 10),
    ('the header\'s 9 before the record\'s 10', ntt('01' + record('') + REV, byte1=0x70), 9),

    # The closing list, and 11, judged last.
    ('no closing list', ntt('01' + record(ONE)), 11),
    ('0x93 only in the record', ntt('01' + record(ONE, behind='01' + REV)), 11),
    ('revision twice', ntt('01' + record(ONE) + REV + REV), 11), ('10 and no revision', ntt('01' + record('')), 10),
    ('a tag alone', ntt('01' + record(ONE) + REV + '40'), 8),
]


def language_cases():
    """All languages read right here."""
    for language in (b'eng', b'ENG', b'fra', b'\xFF\xFF\xFF', b'\0\0\0'):
        section = ntt('01' + record(ONE) + REV, language.hex())
        yield 'language %s' % language, (reading.check(section), reading.read(section).language), (0, language)


def subtype_cases():
    for byte in range(256):
        section = examples.whole(0xC3, '00' + ENG + '%02X 00' % byte + REV)
        yield 'medium and subtype %02X' % byte, reading.check(section), 0 if byte == 6 else 7


def cut_cases():
    """A section that ends anywhere in a record and what follows: 8, until the closing list can begin."""
    whole = bytes.fromhex(record('83' + ONE + '84', behind='01 40 01 AA'))
    for size in range(len(whole)):
        yield 'cut at %d' % size, reading.check(ntt('01' + whole[:size].hex())), 8
    yield 'not cut', reading.check(ntt('01' + whole.hex())), 11


def contents():
    section = ntt('02' + record(ONE, behind='01 40 01 AA') + record('80', flags='80', number='00 07') + REV)
    content = reading.read(section)
    yield 'head', content[:6], ('NTT', None, b'eng', 5, 0, 1)
    yield 'names', [(each.application, each.number, section[each.start:each.start + each.size])
                    for each in content.records], [(0, 0x1234, bytes.fromhex(ONE)), (1, 7, b'\x80')]
    yield 'descriptors', [len(each.descriptors) for each in content.records], [1, 0]
    yield 'the closing list begins', content.closing_start, 9 + 9 + 4 + 5 + 1
    yield 'find', reading.find(section, 0x93), ('there', content.closing_start + 2, 3)
    yield 'find not in a record list', reading.find(section, 0x40), ('none',)


def main():
    tried = [(what, reading.check(section), wanted) for what, section, wanted in ANSWERS]
    for cases in (text_cases, generated, language_cases, subtype_cases, cut_cases, contents):
        tried.extend(cases())
    return examples.report(tried)


if __name__ == '__main__':
    sys.exit(main())
