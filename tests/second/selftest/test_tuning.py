"""Mofrindi: self test of tuning.py and of the wire of the trials.

Run with: python3 tests/second/selftest/test_tuning.py

Plants, places and answers written by hand from document 01.  Prints one line; exit 1 if any is wrong.
"""

import os
import sys

sys.dont_write_bytecode = True
sys.path.insert(0, os.path.dirname(os.path.dirname(os.path.abspath(__file__))))

from compare import compare_tuner
from generate import plants, tuning_trials
from program import receiver, section as reading, tuning
from selftest import test_examples as examples

MAP = 0x1234            # the map number of the sections in test_examples.py
NAMES = ('CDS', 'MMS', 'VCM', 'DCM')
STORE = 40960
LANGUAGE = b'eng'

# The start of section 0 of half 0 and of half 1, counted out by hand.
STARTS = {'CDS': (0, 4096), 'MMS': (8192, 12288), 'VCM': (16384, 20480), 'DCM': (24576, 28672),
          'NTT': (32768, 36864)}
NONE_HELD = (0, 0, 0, 0)
NO_NAMES = (0, 0, 0) + NONE_HELD + (1,)

C1, C9, C10, C12 = examples.C1, examples.CHANNEL, examples.ANALOGUE, examples.MODE
C7 = (2, '83 05 81')
TUNED = 'digital hidden 0 path 0 63000 kHz programme 3 mode 2 15 0 8 5056941'      # the line of document 01


# -------------------------------------------------------------- plants by hand

def cds(first, *records):
    return 0xC2, '00 %02X %02X 01' % (first, len(records)) + ''.join(records)


def mms(first, *records):
    return 0xC2, '00 %02X %02X 02' % (first, len(records)) + ''.join(records)


def vcm(*records, lists=0, map_number=MAP):
    return 0xC4, '00 00 %04X %02X 00 00000000 %02X' % (map_number, 0x20 * lists, len(records)) + ''.join(records)


def dcm(first, ranges, map_number=MAP):
    return 0xC4, '00 01 %04X %04X %02X' % (map_number, first, len(bytes.fromhex(ranges))) + ranges


def ntt(*records, language=LANGUAGE):
    return 0xC3, '00 %s 06 %02X' % (language.hex(), len(records)) + ''.join(records)


def section(body, v, n, last):
    number, front = body
    return examples.whole(number, front + ' 93 03 %02X %02X %02X' % (0xE0 | v, n, last))


# C1, C12 at mode index 1, C7 and C9, first index 1; behind C9 stands C10.
PLANT = {'CDS': [cds(1, C1 + ' 00')], 'MMS': [mms(1, C12 + ' 00')], 'VCM': [vcm(C9, C10)], 'DCM': [dcm(*C7)]}


def table(values):
    return receiver.Table(receiver.Live(*values[:3]), receiver.Gathered(*values[3:7]), values[7])


def state(plant, halves=(0, 0, 0, 0, 0), **others):
    """Version 5 of all tables of the plant live; others has the eight values of a table instead."""
    values = {name: (1, 5, len(plant[name]) - 1) + NONE_HELD + (half,) for name, half in zip(plant, halves)}
    values.update(others)
    return receiver.State(MAP, tuple(table(values.get(name, NO_NAMES)) for name in STARTS), LANGUAGE)


def store(plant, halves=(0, 0, 0, 0, 0), length=STORE):
    made = bytearray(b'\xEE' * length)
    for name, half in zip(plant, halves):
        for number, body in enumerate(plant[name]):
            data = section(body, 5, number, len(plant[name]) - 1)
            start = STARTS[name][half] + 1024 * number
            made[start:start + len(data)] = data
    return made


def words(answer):
    if isinstance(answer, reading.Refusal):
        return 'refused %d' % answer.number
    both = 'hidden %d path %d' % answer[:2]
    if isinstance(answer, tuning.Digital):
        return 'digital %s %d kHz programme %d mode %d %d %d %d %d' % ((both,) + answer[2:4] + answer.mode)
    if isinstance(answer, tuning.Analogue):
        return 'analogue %s %d kHz standard %d scrambled %d' % ((both,) + answer[2:])
    return 'application %s number %d' % (both, answer.number)


def asked(what, before, lent, answers):
    """One case for each channel; the store must stay as it is."""
    for number, wanted in answers.items():
        copy = bytearray(lent)
        yield '%s, channel %d' % (what, number), (words(tuning.tune(before, copy, number)), copy), (wanted, lent)


def plant_cases(what, answers, **tables):
    """The plant with these tables, in half 0 and, all of it, in half 1."""
    plant = dict(PLANT, **{name.upper(): bodies for name, bodies in tables.items()})
    for halves in ((0, 0, 0, 0), (1, 1, 1, 1)):
        yield from asked(what, state(plant, halves), store(plant, halves), answers)


def refused(number, channels):
    return {channel: 'refused %d' % number for channel in channels}


# ------------------------------------------------------------------ the examples

def line():
    """The digital line of document 01, and all that stands beside it in C7."""
    answers = {3: TUNED, 2: 'refused 18', 4: 'refused 18', 10: 'refused 18'}
    answers.update(refused(17, (0, 1, 5, 6, 7, 8, 9, 11, 4095)))
    answers.update(refused(14, (4096, 4099, 65535)))
    yield from plant_cases('the printed line', answers)
    c10 = 'analogue hidden 0 path 0 63000 kHz standard 0 scrambled 1'
    yield from plant_cases('C10', {8: c10, 3: TUNED}, dcm=[dcm(0, '89')])
    yield from plant_cases('C8', {4095: 'refused 18', 4094: 'refused 17'}, dcm=[dcm(4095, '81')])


def one_frequency(what, record, reference, answer, first=1):
    """A digital and an analogue channel on one carrier; answer is kHz or a refusal."""
    channels = ['0003 00 1234 %02X 0003 01' % reference, '0004 10 1235 %02X 00 0000' % reference]
    answers = refused(answer, (3, 4))
    if answer > 21:
        answers = {3: 'digital hidden 0 path 0 %d kHz programme 3 mode 2 15 0 8 5056941' % answer,
                   4: 'analogue hidden 0 path 0 %d kHz standard 0 scrambled 0' % answer}
    return plant_cases(what, answers, cds=[cds(first, record + ' 00')], vcm=[vcm(*channels)])


def carriers():
    for what, record, reference, answer in (
            ('C1, 0', C1, 1, 57000), ('C1, 1', C1, 2, 63000), ('C1, beyond', C1, 3, 19), ('C1, none', C1, 0, 19),
            ('C2', '01 00 00 15 18', 1, 54000), ('C3', '01 00 00 15 17', 1, 20),
            ('C4', '01 00 00 9F 50', 1, 1002000), ('C4, 51', '01 00 00 9F 51', 1, 20),
            ('C6, last', 'FF BF FF FF FF', 255, 20), ('C6, first', 'FF BF FF FF FF', 1, 20),
            ('53,875', '01 00 00 81 AF', 1, 20), ('54,000 by 125', '01 00 00 81 B0', 1, 54000),
            ('54,125', '01 00 00 81 B1', 1, 54125), ('54,010', '01 00 00 15 19', 1, 54010),
            ('53,875 + 12 x 10', '0E 00 01 81 AF', 13, 20), ('53,875 + 13 x 10', '0E 00 01 81 AF', 14, 54005),
            ('300,000 + 702,000', '02 95 F0 75 30', 2, 1002000), ('300,010 + 702,000', '02 95 F0 75 31', 2, 20),
            ('299,990 + 702,000', '02 95 F0 75 2F', 2, 1001990),
            ('10 for the spacing, 125 for the first', '03 02 58 81 C8', 3, 69000),
            ('125 for the spacing, 10 for the first', '03 80 30 75 30', 3, 312000),
            ('64 x 10,240', '41 04 00 15 18', 65, 709360), ('1,001,875 + 13 x 10', '0E 00 01 9F 4F', 14, 20),
            ('1,001,875 + 12 x 10', '0E 00 01 9F 4F', 13, 1001995)):
        yield from one_frequency(what, record, reference, answer)
    yield from one_frequency('index 255', '02 80 30 81 C8', 255, 63000, first=254)
    yield from one_frequency('index below the first', '02 80 30 81 C8', 253, 19, first=254)
    record = reading.read(examples.one_carrier('FF BF FF FF FF')).records[0]
    yield 'C6, kHz', reading.carrier_khz(record, 254), 524256125
    record = reading.read(examples.one_carrier(C1)).records[0]
    yield 'C1, kHz', [reading.carrier_khz(record, k) for k in (0, 1)], [57000, 63000]


# ------------------------------------------------------------------ what is searched

def analogue_at(khz):
    return 'analogue hidden 0 path 0 %d kHz standard 0 scrambled 0' % khz


def digital_mode(mode):
    return 'digital hidden 0 path 0 57000 kHz programme 3 mode ' + mode


KHZ_60000, KHZ_50000, KHZ_70000 = '01 0000 1770 00', '01 0000 1388 00', '01 0000 1B58 00'


def first_carrier():
    """Carrier 2 in two sections; the first one counts, also if it is too low."""
    channel = vcm('0003 10 1235 02 00 0000')
    for what, answer, bodies in (
            ('good, good', analogue_at(60000), [cds(2, KHZ_60000), cds(2, KHZ_70000)]),
            ('good, bad', analogue_at(60000), [cds(2, KHZ_60000), cds(2, KHZ_50000)]),
            ('bad, good', 'refused 20', [cds(2, KHZ_50000), cds(2, KHZ_60000)]),
            ('later in the first', analogue_at(70000), [cds(1, KHZ_60000, KHZ_70000), cds(2, KHZ_60000)]),
            ('only in the second', analogue_at(60000), [cds(3, KHZ_70000), cds(1, KHZ_70000, KHZ_60000)]),
            ('in the second and third', analogue_at(60000), [cds(1), cds(2, KHZ_60000), cds(2, KHZ_70000)]),
            ('in the third and fourth', analogue_at(70000),
             [cds(1), cds(3, KHZ_60000), cds(2, KHZ_70000), cds(2, KHZ_60000)]),
            ('only in the fourth', analogue_at(60000),
             [cds(1), cds(1, KHZ_70000), cds(3, KHZ_70000), cds(2, KHZ_60000)]),
            ('in none', 'refused 19', [cds(1, KHZ_70000), cds(3, KHZ_70000)]),
            ('no records', 'refused 19', [cds(1)])):
        yield from plant_cases('carrier 2: ' + what, {3: answer}, cds=bodies, vcm=[channel])


def first_mode():
    one, other = C12 + '00', '40 81 0FFFFFFF 00'
    channel = vcm('0003 00 1234 01 0003 02', '0004 00 1234 01 0003 00')
    for what, answer, bodies in (
            ('two sections', digital_mode('2 15 0 8 5056941'), [mms(2, one), mms(2, other)]),
            ('turned round', digital_mode('4 0 1 1 268435455'), [mms(2, other), mms(2, one)]),
            ('second record', digital_mode('4 0 1 1 268435455'), [mms(1, one, other), mms(2, one)]),
            ('second section', digital_mode('2 15 0 8 5056941'), [mms(3, other), mms(1, other, one)]),
            ('second and third', digital_mode('4 0 1 1 268435455'), [mms(1), mms(2, other), mms(2, one)]),
            ('third and fourth', digital_mode('4 0 1 1 268435455'),
             [mms(1), mms(3, one), mms(2, other), mms(2, one)]),
            ('only in the fourth', digital_mode('2 15 0 8 5056941'), [mms(1), mms(3, one), mms(1), mms(2, one)]),
            ('in none', 'refused 21', [mms(1, one), mms(3, one)]), ('no records', 'refused 21', [mms(2)])):
        yield from plant_cases('mode 2: ' + what, {3: answer, 4: 'refused 21'}, mms=bodies, vcm=[channel])


def first_channel():
    """Channel 3 in two records; only the first counts, whatever becomes of it."""
    good, none, low_mode = C9, '0003 00 1234 00 0003 01', '0003 00 1234 02 0003 00'
    application, hidden = '0003 80 1234 00 0000 00', '0003 31 1234 01 82 0000'
    other = '0004 00 1234 02 0003 01'
    for what, answer, bodies in (
            ('good first', TUNED, [vcm(good, none)]), ('bad first', 'refused 19', [vcm(none, good)]),
            ('no mode first', 'refused 21', [vcm(low_mode, application)]),
            ('application first', 'application hidden 0 path 0 number 4660', [vcm(application, good)]),
            ('hidden first', 'analogue hidden 1 path 1 57000 kHz standard 2 scrambled 1', [vcm(hidden, good)]),
            ('sections, good first', TUNED, [vcm(good), vcm(none)]),
            ('sections, bad first', 'refused 19', [vcm(other, none), vcm(good)]),
            ('second and third section', TUNED, [vcm(), vcm(other, good), vcm(none)]),
            ('third and fourth section', 'refused 19', [vcm(), vcm(other), vcm(none), vcm(good)]),
            ('fourth section', TUNED, [vcm(), vcm(other), vcm(), vcm(other, good)])):
        yield from plant_cases('channel 3: ' + what, {3: answer}, vcm=bodies)


def first_range():
    for what, answer, bodies in (
            ('defined, not', TUNED, [dcm(3, '81'), dcm(2, '04')]),
            ('not, defined', 'refused 17', [dcm(2, '04'), dcm(3, '81')]),
            ('elsewhere, defined', TUNED, [dcm(0, '83'), dcm(4, '03'), dcm(3, '81')]),
            ('elsewhere, not', 'refused 17', [dcm(0, '83'), dcm(4, '83'), dcm(3, '01'), dcm(3, '81')]),
            ('second and third section', TUNED, [dcm(0, '83'), dcm(2, '82'), dcm(3, '01')]),
            ('third and fourth section', 'refused 17', [dcm(0, ''), dcm(4, '83'), dcm(3, '01'), dcm(3, '81')]),
            ('fourth section', TUNED, [dcm(0, ''), dcm(4, '83'), dcm(0, '03'), dcm(0, '03 82')]),
            ('last of a range', TUNED, [dcm(0, '84')]), ('first of a range', TUNED, [dcm(0, '03 81')]),
            ('one behind', 'refused 17', [dcm(0, '83')]), ('one before', 'refused 17', [dcm(4, '81')]),
            ('no range', 'refused 17', [dcm(3, '')])):
        yield from plant_cases('range of 3: ' + what, {3: answer}, dcm=bodies)


def channel_kinds():
    """Applications need nothing but to be defined; hidden is type 1."""
    records = {
        20: ('0014 80 ABCD 00 0000 00', 'application hidden 0 path 0 number 43981'),
        21: ('0015 A1 FFFF 63 0003 63', 'application hidden 1 path 1 number 65535'),
        22: ('0016 90 0000 63 84 0000', 'application hidden 0 path 0 number 0'),
        23: ('0017 21 1234 01 FFFF 01', 'digital hidden 1 path 1 57000 kHz programme 65535 mode 2 15 0 8 5056941'),
        24: ('0018 01 1234 01 0000 01', 'digital hidden 1 path 0 57000 kHz programme 0 mode 2 15 0 8 5056941'),
        25: ('0019 20 1234 01 0100 01', 'digital hidden 0 path 1 57000 kHz programme 256 mode 2 15 0 8 5056941'),
        26: ('001A 31 1234 01 84 0000', 'analogue hidden 1 path 1 57000 kHz standard 4 scrambled 1'),
        27: ('001B 10 1234 01 03 0000', 'analogue hidden 0 path 0 57000 kHz standard 3 scrambled 0')}
    whole = vcm(*(record for record, _ in records.values()))
    answers = {number: answer for number, (_, answer) in records.items()}
    yield from plant_cases('kinds', answers, vcm=[whole], dcm=[dcm(0, 'FF')])
    yield from plant_cases('kinds, not defined', refused(17, records), vcm=[whole], dcm=[dcm(0, '7F')])
    yield from plant_cases('kinds, no range', refused(17, records), vcm=[whole], dcm=[dcm(0, '')])


def order_of_17_to_21():
    """Carrier 3 is too low, 4 isn't there; mode 2 isn't there."""
    records = {
        20: ('0014 00 1234 00 0003 00', 'refused 19'), 21: ('0015 00 1234 04 0003 02', 'refused 19'),
        22: ('0016 00 1234 03 0003 00', 'refused 20'), 23: ('0017 00 1234 03 0003 02', 'refused 20'),
        24: ('0018 00 1234 01 0003 00', 'refused 21'), 25: ('0019 00 1234 01 0003 02', 'refused 21'),
        26: ('001A 10 1234 00 00 0000', 'refused 19'), 27: ('001B 10 1234 03 00 0000', 'refused 20')}
    answers = {number: answer for number, (_, answer) in records.items()}
    tables = {'cds': [cds(1, C1 + '00', KHZ_50000)], 'vcm': [vcm(*(record for record, _ in records.values()))]}
    yield from plant_cases('order', answers, dcm=[dcm(0, 'FF')], **tables)
    yield from plant_cases('order, no record', {28: 'refused 18', 19: 'refused 18'}, dcm=[dcm(0, 'FF')], **tables)
    yield from plant_cases('order, not defined', refused(17, (19, 20, 22, 24, 28)), dcm=[dcm(0, '7F')], **tables)


def record_lists():
    """Descriptors behind records, some looking like records, are stepped over."""
    lure = '02 80 05 01 0000 1770 40 00'                # two descriptors, one with a carrier of 60,000 in it
    tables = {
        'cds': [cds(1, '01 0000 1B58' + lure, '01 0000 1B59' + lure, C1 + '00')],
        'mms': [mms(1, '40 81 0FFFFFFF 01 93 03 E6 00 00', C12 + '00')],
        'vcm': [vcm('0004 00 1234 01 0003 01 02 40 09 0003 10 1234 01 00 0000 41 00', '0003 00 1234 04 0003 02 00',
                    '0005 10 1234 03 00 0000 01 93 03 E6 00 00', '0006 10 1234 02 00 0000 00', lists=1)],
        'dcm': [dcm(0, '8A')]}
    yield from plant_cases('lists', {
        3: TUNED, 4: 'digital hidden 0 path 0 70000 kHz programme 3 mode 4 0 1 1 268435455',
        5: analogue_at(57000), 6: analogue_at(70010), 7: 'refused 18'}, **tables)


# --------------------------------------------------------------- refusals 1, 2, 14 to 16

def lengths():
    for length in (0, 1, 32767, 32768, 40959):
        yield from asked('store of %d' % length, state(PLANT), store(PLANT)[:length],
                         refused(1, (3, 0, 4096, 65535)))
        yield from asked('1 before 2', state(PLANT, DCM=(2,) + (0,) * 7), store(PLANT)[:length],
                         refused(1, (3, 4096)))
    for length in (40960, 40961, 65536):
        yield from asked('store of %d' % length, state(PLANT), store(PLANT, length=length),
                         {3: TUNED, 0: 'refused 17', 4095: 'refused 17', 4096: 'refused 14'})


BAD = [
    ('live version 32', (1, 32, 0, 0, 0, 0, 0, 0)), ('live last 4', (1, 5, 4, 0, 0, 0, 0, 0)),
    ('half 2', (1, 5, 0, 0, 0, 0, 0, 2)), ('live present 2', (2, 5, 0, 0, 0, 0, 0, 0)),
    ('gathered version 32', (1, 5, 0, 1, 32, 1, 1, 0)), ('gathered last 4', (1, 5, 0, 1, 6, 4, 1, 0)),
    ('held empty', (1, 5, 0, 1, 6, 1, 0, 0)), ('held complete', (1, 5, 0, 1, 6, 1, 3, 0)),
    ('held beyond', (1, 5, 0, 1, 6, 1, 4, 0)), ('held high bit', (1, 5, 0, 1, 6, 3, 0x81, 0)),
    ('both version 5', (1, 5, 0, 1, 5, 1, 1, 0)), ('nothing live, version', (0, 5, 0, 0, 0, 0, 0, 0)),
    ('nothing live, last', (0, 0, 1, 0, 0, 0, 0, 0)), ('nothing gathered, version', (1, 5, 0, 0, 6, 0, 0, 0)),
    ('nothing gathered, last', (1, 5, 0, 0, 0, 1, 0, 0)), ('nothing gathered, held', (1, 5, 0, 0, 0, 0, 1, 0)),
    ('gathered present 2', (1, 5, 0, 2, 6, 1, 1, 0)),
]


def states():
    for name in NAMES:
        for what, values in BAD:
            yield from asked('%s, %s' % (what, name), state(PLANT, **{name: values}), store(PLANT),
                             refused(2, (3, 0, 4096)))
        yield from asked('gathering, ' + name, state(PLANT, **{name: (1, 5, 0, 1, 6, 1, 2, 0)}), store(PLANT),
                         {3: TUNED, 4096: 'refused 14'})
        for values in ((0, 0, 0, 0, 0, 0, 0, 0), (0, 0, 0, 0, 0, 0, 0, 1), (0, 0, 0, 1, 5, 1, 1, 1)):
            yield from asked('not live, ' + name, state(PLANT, **{name: values}), store(PLANT),
                             {**refused(15, (3, 0, 4095)), **refused(14, (4096, 65535))})
        absent = state(PLANT, **{name: (0,) * 8})
        yield from asked('15 before 16, ' + name, absent, bytearray(STORE), refused(15, (3,)))


def another(name, v=5, n=0, last=0, body=None):
    return section(PLANT[name][0] if body is None else body, v, n, last)


def of_length(name, total):
    """The section of the plant, 0 of 0, made so long with unknown descriptors."""
    front = PLANT[name][0][1] + ' 93 03 E5 00 00' + ('40 FF' + '00' * 255) * 3
    gap = total - 7 - len(bytes.fromhex(front)) - 2
    return examples.whole(PLANT[name][0][0], front + '40 %02X' % gap + '00' * gap)


def wrong_sections(name):
    """(what, bytes at the front of the place) that aren't 0 of 0 of version 5 of this table."""
    right = another(name)
    yield 'no bytes', bytes(1024)
    yield 'CRC', right[:-1] + bytes([right[-1] ^ 1])
    yield 'first byte', bytes([right[0] ^ 1]) + right[1:]
    yield 'version 4', another(name, v=4)
    yield 'version 21', another(name, v=21)
    yield 'last 1', another(name, last=1)
    yield 'last 255', another(name, last=255)
    yield '1 of 1', another(name, n=1, last=1)
    yield 'length', right[:2] + bytes([right[2] + 1]) + right[3:]
    for other in NAMES:
        if other != name:
            yield 'a section of ' + other, another(other)
    if name == 'VCM':
        yield 'another map', another(name, body=vcm(C9, map_number=MAP ^ 0x8000))
    if name == 'DCM':
        yield 'another map', another(name, body=dcm(*C7, map_number=MAP ^ 1))
    yield 'two revisions', section((right[0], PLANT[name][0][1] + ' 93 03 E5 00 00'), 5, 0, 0)
    yield 'protocol version 1', section((right[0], '01' + PLANT[name][0][1][2:]), 5, 0, 0)
    yield 'zero bit', section((right[0], '20' + PLANT[name][0][1][2:]), 5, 0, 0)
    yield '1,025 bytes', of_length(name, 1025)


def places():
    numbers = (3, 0, 4095)
    for name in NAMES:
        for half in (0, 1):
            halves = tuple(half if each == name else 0 for each in NAMES)
            start = STARTS[name][half]
            for what, data in wrong_sections(name):
                hurt = store(PLANT, halves, 50000)
                hurt[start:start + len(data)] = data
                yield from asked('%s, %s, half %d' % (what, name, half), state(PLANT, halves), hurt,
                                 {**refused(16, numbers), **refused(14, (4096,))})
            longest = store(PLANT, halves)
            longest[start:start + 1024] = of_length(name, 1024)
            yield from asked('1,024 bytes, %s, half %d' % (name, half), state(PLANT, halves), longest,
                             {3: TUNED, 5: 'refused 17'})
            # The other half, bytes behind the section and behind the last place.
            beside = store(PLANT, halves, 50000)
            other = STARTS[name][1 - half]
            beside[other:other + 1024] = bytes(1024)
            beside[start + len(another(name)):start + 1024] = bytes(1024 - len(another(name)))
            beside[start + 1024:start + 4096] = bytes(3072)
            beside[32768:] = bytes(50000 - 32768)
            yield from asked('no matter, %s, half %d' % (name, half), state(PLANT, halves), beside,
                             {3: TUNED, 4: 'refused 18', 5: 'refused 17'})
        # Four sections: each of their places counts, for channels that don't need it too.
        empty = {'CDS': cds(1), 'MMS': mms(1), 'VCM': vcm(), 'DCM': dcm(0, '')}[name]
        plant = dict(PLANT, **{name: PLANT[name] + [empty] * 3})
        yield from asked('four sections, ' + name, state(plant), store(plant), {3: TUNED, 5: 'refused 17'})
        for number in range(4):
            hurt = store(plant)
            hurt[STARTS[name][0] + 1024 * number + 7] ^= 4
            yield from asked('%s %d of 3' % (name, number), state(plant), hurt, refused(16, (3, 5)))
        swapped = store(plant)
        swapped[STARTS[name][0] + 1024:STARTS[name][0] + 3072] = (
            store(plant)[STARTS[name][0] + 2048:STARTS[name][0] + 3072]
            + store(plant)[STARTS[name][0] + 1024:STARTS[name][0] + 2048])
        yield from asked('%s 1 and 2 swapped' % name, state(plant), swapped, refused(16, (3, 5)))
    yield from asked('map number', state(PLANT)._replace(map_number=MAP + 1), store(PLANT), refused(16, (3,)))


# ------------------------------------------------------------------- names don't matter

def whatever_names():
    """Tuning with names live, gathered, damaged, or in another language."""
    name = ntt('00 1234 04 00 02 4F 6E 00')
    plant = dict(PLANT, NTT=[name])
    answers = {3: TUNED, 4: 'refused 18', 5: 'refused 17', 4096: 'refused 14'}
    yield from asked('names', state(plant), store(plant), answers)
    yield from asked('names gathered', state(PLANT, NTT=(0, 0, 0, 1, 9, 1, 1, 0)), store(PLANT), answers)
    yield from asked('names that are nowhere', state(PLANT, NTT=(1, 5, 3, 0, 0, 0, 0, 1)), store(PLANT), answers)
    yield from asked('another language', state(plant)._replace(language=b'fra'), store(plant), answers)
    for at in (0, 7, 8, 20):
        hurt = store(plant)
        hurt[32768 + at] ^= 1
        yield from asked('names damaged at %d' % at, state(plant), hurt, answers)
    for what, values in BAD:
        yield from asked('names, ' + what, state(plant, NTT=values), store(plant), refused(2, (3, 4096)))
    yield from asked('15 beside names', state(plant, DCM=(0,) * 8), store(plant), refused(15, (3, 4)))


# --------------------------------------------------------------------- the wire

def wire():
    yield 'refused as bytes', compare_tuner.answer_bytes(reading.Refusal(17)), bytes.fromhex('0011' + '00' * 18)
    yield ('digital as bytes', compare_tuner.answer_bytes(tuning.tune(state(PLANT), store(PLANT), 3)),
           bytes.fromhex('01 00 00 00 18F60000 0300 02 0F 00 08 0000 AD294D00'))
    yield ('digital with all set', compare_tuner.answer_bytes(
        tuning.Digital(1, 1, 1002000, 0x1234, tuning.ModeRecord(4, 11, 1, 24, 0xFEDCBA9))),
           bytes.fromhex('01 01 01 00 104A0F00 3412 04 0B 01 18 0000 A9CBED0F'))
    yield ('analogue as bytes', compare_tuner.answer_bytes(tuning.Analogue(1, 0, 54000, 4, 1)),
           bytes.fromhex('02 01 00 00 F0D20000 04 01' + '00' * 10))
    yield ('application as bytes', compare_tuner.answer_bytes(tuning.Application(0, 1, 0x1234)),
           bytes.fromhex('03 00 01 00 00000000 3412' + '00' * 10))
    before = receiver.State(0x1234, tuple(table(tuple(range(at, at + 8))) for at in (1, 11, 21, 31, 41)), b'fra')
    one = plants.Trial('', '', before, 40000, 7, ((258, b'\xAA\xBB'), (259, b'\xCC')), (3, 4096), (None, None),
                       b'\xDD\xEE\xFF', (5,), (None,))
    yield 'trial as bytes', tuning_trials.request(one), bytes.fromhex(
        '3412 0102030405060708 0B0C0D0E0F101112 15161718191A1B1C 1F20212223242526 292A2B2C2D2E2F30 667261'
        '409C0000 07 0200 02010000 0200 AABB 03010000 0100 CC 02000000 0300 0010 0300 DDEEFF 01000000 0500')
    made = tuning_trials.trial_store(one)
    yield ('store of a trial', ([made[at] for at in (0, 1, 256, 257, 258, 259, 260)], len(made)),
           ([7, 38, 24, 55, 0xAA, 0xCC, 148], 40000))


def main():
    tried = []
    for cases in (line, carriers, first_carrier, first_mode, first_channel, first_range, channel_kinds,
                  order_of_17_to_21, record_lists, lengths, states, places, whatever_names, wire):
        tried.extend(cases())
    return examples.report(tried)


if __name__ == '__main__':
    sys.exit(main())
