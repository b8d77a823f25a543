"""Mofrindi: self test of receiver.py and of the wire in trials.py.

Run with: python3 tests/second/selftest/test_receiver.py

States, places and answers written by hand from document 01.  Prints one line; exit 1 if any is wrong.
"""

import os
import sys

sys.dont_write_bytecode = True
sys.path.insert(0, os.path.dirname(os.path.dirname(os.path.abspath(__file__))))

from generate import trials
from program import receiver
from selftest import test_examples as examples

MAP = 0x1234            # the map number of the sections in test_examples.py
NAMES = ('CDS', 'MMS', 'VCM', 'DCM', 'NTT')
STORE = 40960
LANGUAGE = b'eng'

NOTHING = (0, 0, 0)
NONE_HELD = (0, 0, 0, 0)
FRESH = NOTHING + NONE_HELD + (1,)


# ------------------------------------------------------ sections, states, stores

def revision(v, n, last):
    return ' 93 03 %02X %02X %02X ' % (0xE0 | v, n, last)


def section(name, offer, more=''):
    """v/n/last of a table; more is the hex of further closing descriptors."""
    closing = revision(*map(int, offer.split('/'))) + more
    if name == 'CDS':
        return examples.cds(examples.C1 + ' 00' + closing)
    if name == 'MMS':
        return examples.mms(examples.MODE + ' 00' + closing)
    if name == 'VCM':
        return examples.vcm(examples.VCM_HEAD + '01 ' + examples.CHANNEL + closing)
    if name == 'NTT':
        return names(LANGUAGE, closing)
    return examples.dcm('00 02 03 83 05 81' + closing)


def names(language, closing):
    """A name for source 0x1234."""
    return examples.whole(0xC3, '00 %s 06 01 00 1234 04 00 02 4F 6E 00' % language.hex() + closing)


def for_map(name, map_number, offer):
    """A VCM or DCM section of another map, without records."""
    front = {'VCM': '00 00 %04X' + '00' * 7, 'DCM': '00 01 %04X' + '00' * 3}[name] % map_number
    return examples.whole(0xC4, front + revision(*map(int, offer.split('/'))))


def in_language(language, offer):
    return names(language, revision(*map(int, offer.split('/'))))


def longest(name, offer):
    """1,024 bytes."""
    gap = 1024 - len(section(name, offer))
    more = '40 FF' + '5A' * 255
    rest = gap - 3 * 257 - 2
    return section(name, offer, more * 3 + '41 %02X' % rest + 'A5' * rest)


def table(values):
    return receiver.Table(receiver.Live(*values[:3]), receiver.Gathered(*values[3:7]), values[7])


def state(name=None, values=FRESH, others=FRESH):
    """One table with these eight values, in the order of the state; the others as given."""
    return receiver.State(MAP, tuple(table(values if each == name else others) for each in NAMES), LANGUAGE)


def blank(length=STORE):
    return bytearray(b'\xEE' * length)


def with_bytes(start, data, length=STORE):
    store = blank(length)
    store[start:start + len(data)] = data
    return store


def offered(before, data, length=STORE):
    """(answer in words, state after, store after) of one section."""
    store = blank(length)
    answer, after = receiver.offer(before, store, data)
    return '%s %d' % answer, after, store


def untouched(before, data, words, length=STORE):
    return offered(before, data, length), (words, before, blank(length))


# ------------------------------------------------------------------------- C13

# The start of section 0 of half 0 and of half 1, counted out by hand.
STARTS = {'CDS': (0, 4096), 'MMS': (8192, 12288), 'VCM': (16384, 20480), 'DCM': (24576, 28672),
          'NTT': (32768, 36864)}

# (offer, answer, the table after it, where the section's bytes stand now: half and number, or None)
C13 = [
    ('5/0/1', 'stored 1', NOTHING + (1, 5, 1, 1) + (1,), (0, 0)),
    ('5/0/1', 'repeat 0', NOTHING + (1, 5, 1, 1) + (1,), None),
    ('6/0/0', 'live 6', (1, 6, 0) + NONE_HELD + (0,), (0, 0)),
    ('5/1/1', 'stored 1', (1, 6, 0) + (1, 5, 1, 2) + (0,), (1, 1)),
    ('6/0/0', 'repeat 0', (1, 6, 0) + (1, 5, 1, 2) + (0,), None),
    ('5/0/1', 'live 5', (1, 5, 1) + NONE_HELD + (1,), (1, 0)),
    ('5/0/0', 'refused 13', (1, 5, 1) + NONE_HELD + (1,), None),
    ('7/0/4', 'refused 12', (1, 5, 1) + NONE_HELD + (1,), None),
]


def c13(name):
    """Every answer, state and store of C13; each section has bytes of its own."""
    store, wanted_store = blank(), blank()
    now = receiver.fresh(MAP, LANGUAGE)
    for step, (offer, words, values, place) in enumerate(C13):
        data = section(name, offer, '40 01 %02X' % step)
        answer, now = receiver.offer(now, store, data)
        if place is not None:
            start = STARTS[name][place[0]] + 1024 * place[1]
            wanted_store[start:start + len(data)] = data
        yield ('C13, %s, step %d' % (name, step + 1), ('%s %d' % answer, now, store == wanted_store),
               (words, state(name, values), True))


# ---------------------------------------------------------------------- places

def places():
    """Section n of half h of each table: its start, and nothing else changed."""
    for name in NAMES:
        for half in (0, 1):
            for number in range(4):
                start = STARTS[name][half] + 1024 * number
                data = section(name, '9/%d/3' % number)
                values = NOTHING + (1, 9, 3, 1 << number) + (1 - half,)
                yield ('place %s, half %d, %d' % (name, half, number),
                       offered(state(name, NOTHING + NONE_HELD + (1 - half,)), data),
                       ('stored 3', state(name, values), with_bytes(start, data)))


def longest_sections():
    """A place filled to its last byte, the last place of all too; bytes behind it stay."""
    for name, number, start in (('CDS', 0, 4096), ('MMS', 2, 14336), ('DCM', 3, 31744), ('NTT', 3, 39936)):
        data = longest(name, '9/%d/3' % number)
        before = state(name, NOTHING + NONE_HELD + (0,))
        after = state(name, NOTHING + (1, 9, 3, 1 << number) + (0,))
        for length in (40960, 40961, 50000):
            yield ('1,024 bytes, %s %d, store of %d' % (name, number, length), offered(before, data, length),
                   ('stored 3', after, with_bytes(start, data, length)))
    yield 'longest section', len(longest('VCM', '9/0/3')), 1024


def short_over_long():
    """The rest of the place keeps the long one's bytes."""
    store = blank()
    long_one, short_one = longest('VCM', '9/0/1'), section('VCM', '8/0/1')
    _, now = receiver.offer(receiver.fresh(MAP, LANGUAGE), store, long_one)
    answer, now = receiver.offer(now, store, short_one)
    yield ('short over long', (answer, now, store),
           (('stored', 1), state('VCM', NOTHING + (1, 8, 1, 1) + (1,)),
            with_bytes(16384, short_one + long_one[len(short_one):])))


# ------------------------------------------------------------------- refusal 2

# live present, version, last; gathered present, version, last, held; half.  Well formed:
GOOD = [
    (0, 0, 0, 0, 0, 0, 0, 0), (0, 0, 0, 0, 0, 0, 0, 1),
    (1, 31, 3, 0, 0, 0, 0, 0), (1, 0, 0, 0, 0, 0, 0, 1),
    (1, 31, 0, 1, 30, 3, 0x7, 0), (1, 30, 0, 1, 31, 3, 0xE, 1),
    (0, 0, 0, 1, 0, 1, 1, 0), (0, 0, 0, 1, 0, 1, 2, 1), (1, 1, 1, 1, 0, 1, 2, 1),
    (1, 5, 1, 1, 9, 2, 0x1, 0), (1, 5, 1, 1, 9, 2, 0x6, 0),
    (1, 5, 1, 1, 9, 3, 0x8, 0), (1, 5, 1, 1, 9, 3, 0xB, 0),
]
# Not well formed, one thing wrong in each.
BAD = [
    ('live version 32', (1, 32, 1, 1, 9, 2, 1, 0)), ('live version 255', (1, 255, 1, 0, 0, 0, 0, 0)),
    ('gathered version 32', (1, 5, 1, 1, 32, 2, 1, 0)), ('gathered version 255', (0, 0, 0, 1, 255, 2, 1, 0)),
    ('live last 4', (1, 5, 4, 1, 9, 2, 1, 0)), ('live last 255', (1, 5, 255, 0, 0, 0, 0, 1)),
    ('gathered last 4', (1, 5, 1, 1, 9, 4, 1, 0)), ('gathered last 255', (0, 0, 0, 1, 9, 255, 1, 0)),
    ('half 2', (1, 5, 1, 1, 9, 2, 1, 2)), ('half 255', (0, 0, 0, 0, 0, 0, 0, 255)),
    ('held empty', (1, 5, 1, 1, 9, 2, 0, 0)), ('held empty, last 0', (1, 5, 1, 1, 9, 0, 0, 0)),
    ('complete, last 0', (1, 5, 1, 1, 9, 0, 1, 0)), ('complete, last 1', (1, 5, 1, 1, 9, 1, 3, 0)),
    ('complete, last 2', (0, 0, 0, 1, 9, 2, 7, 0)), ('complete, last 3', (1, 5, 1, 1, 9, 3, 15, 0)),
    ('beyond, last 0', (1, 5, 1, 1, 9, 0, 2, 0)), ('beyond, last 1', (1, 5, 1, 1, 9, 1, 5, 0)),
    ('beyond alone, last 1', (1, 5, 1, 1, 9, 1, 4, 0)), ('beyond, last 2', (1, 5, 1, 1, 9, 2, 9, 0)),
    ('bit 4', (1, 5, 1, 1, 9, 3, 0x11, 0)), ('bit 5', (1, 5, 1, 1, 9, 3, 0x21, 0)),
    ('bit 6', (1, 5, 1, 1, 9, 3, 0x41, 0)), ('bit 7', (1, 5, 1, 1, 9, 3, 0x81, 0)),
    ('complete and beyond', (1, 5, 1, 1, 9, 3, 0x1F, 0)), ('all bits', (0, 0, 0, 1, 9, 3, 0xFF, 0)),
    ('both 5', (1, 5, 1, 1, 5, 2, 1, 0)), ('both 0', (1, 0, 2, 1, 0, 2, 1, 1)),
    ('both 31', (1, 31, 1, 1, 31, 1, 1, 0)),
    ('nothing live, version', (0, 1, 0, 1, 9, 2, 1, 0)), ('nothing live, last', (0, 0, 1, 1, 9, 2, 1, 0)),
    ('nothing live or gathered, version', (0, 5, 0, 0, 0, 0, 0, 1)),
    ('nothing live or gathered, last', (0, 0, 3, 0, 0, 0, 0, 0)),
    ('nothing gathered, version', (1, 5, 1, 0, 9, 0, 0, 0)),
    ('nothing gathered, last', (1, 5, 1, 0, 0, 1, 0, 0)),
    ('nothing gathered, held', (1, 5, 1, 0, 0, 0, 1, 0)),
    ('nothing gathered, held high', (0, 0, 0, 0, 0, 0, 128, 0)),
    ('live present 2', (2, 5, 1, 1, 9, 2, 1, 0)), ('live present 255', (255, 5, 1, 0, 0, 0, 0, 0)),
    ('live present 2, all else 0', (2, 0, 0, 0, 0, 0, 0, 1)),
    ('gathered present 2', (1, 5, 1, 2, 9, 2, 1, 0)), ('gathered present 255', (0, 0, 0, 255, 9, 2, 1, 0)),
    ('gathered present 2, all else 0', (1, 5, 1, 2, 0, 0, 0, 0)),
]


def refusal_2():
    """In each of the five tables, for a section of it and of every other."""
    for name in NAMES:
        for values in GOOD:
            yield 'well formed %s, %s' % (values, name), receiver.well_formed(state(name, values)), True
        for what, values in BAD:
            before = state(name, values)
            yield 'not well formed: %s, %s' % (what, name), receiver.well_formed(before), False
            for other in NAMES:
                yield ('%s, %s, section of %s' % (what, name, other),) + untouched(
                    before, section(other, '12/0/0'), 'refused 2')


# --------------------------------------------------------------- order of checks

BOTH = (1, 5, 1) + (1, 9, 2, 2) + (0,)


def order_of_checks():
    good, bad = state('DCM', BOTH), state('DCM', BOTH[:7] + (2,))
    right = section('DCM', '12/0/0')
    wrong_crc = right[:-1] + bytes([right[-1] ^ 1])
    for what, before, data, words, length in (
            ('store of 0 bytes', good, right, 'refused 1', 0),
            ('store of 32,768 bytes, enough for four tables', good, right, 'refused 1', 32768),
            ('store of 40,959 bytes', good, right, 'refused 1', 40959),
            ('1 before 2', bad, right, 'refused 1', 40959),
            ('1 before 3', good, b'', 'refused 1', 0),
            ('2 before 3', bad, b'', 'refused 2', STORE),
            ('2 before other map', bad, for_map('DCM', 0x1235, '12/0/0'), 'refused 2', STORE),
            ('no bytes', good, b'', 'refused 3', STORE),
            ('65,535 bytes', good, bytes(65535), 'refused 3', STORE),
            ('right, then bytes up to 65,535', good, right + bytes(65535 - len(right)), 'refused 3', STORE),
            ('CRC', good, wrong_crc, 'refused 5', STORE),
            ('11 before other map', good, for_map('DCM', 0x1235, '12/1/0'), 'refused 11', STORE),
            ('11 before 12', good, section('DCM', '12/5/4'), 'refused 11', STORE),
            ('other map before 12', good, for_map('DCM', 0x1235, '12/0/4'), 'other map 0', STORE),
            ('other map before 13', good, for_map('DCM', 0x1235, '9/0/1'), 'other map 0', STORE),
            ('other map before repeat', good, for_map('DCM', 0x1235, '5/0/1'), 'other map 0', STORE),
            ('12', good, section('DCM', '12/0/4'), 'refused 12', STORE),
            ('12 of 255', good, section('DCM', '12/255/255'), 'refused 12', STORE),
            ('12 before 13, live', good, section('DCM', '5/0/4'), 'refused 12', STORE),
            ('12 before 13, gathered', good, section('DCM', '9/1/4'), 'refused 12', STORE),
            ('13 against live', good, section('DCM', '5/0/2'), 'refused 13', STORE),
            ('13 against live, lower', good, section('DCM', '5/0/0'), 'refused 13', STORE),
            ('13 against gathered', good, section('DCM', '9/0/3'), 'refused 13', STORE),
            ('13 against gathered before repeat', good, section('DCM', '9/1/1'), 'refused 13', STORE),
            ('repeat of live', good, section('DCM', '5/1/1'), 'repeat 0', STORE),
            ('repeat of held', good, section('DCM', '9/1/2'), 'repeat 0', STORE)):
        yield (what,) + untouched(before, data, words, length)
    for name in ('VCM', 'DCM'):
        for bit in range(16):
            yield ('other map, bit %d, %s' % (bit, name),) + untouched(
                good, for_map(name, MAP ^ 1 << bit, '12/0/0'), 'other map 0')


def languages():
    """Three bytes, compared as they are; reading and 2 come before them, 12, 13 and repeat behind."""
    good, bad = state('NTT', BOTH), state('NTT', BOTH[:7] + (2,))
    for language in (b'ENG', b'Eng', b'fra', b'\xFF\xFF\xFF', b'\0\0\0', b'en\0', b'enh', b'fng', b'emg', b'gne'):
        for offer in ('12/0/0', '12/0/4', '5/0/1', '5/0/2', '9/1/2', '9/0/3', '9/0/2'):
            yield ('language %s, %s' % (language, offer),) + untouched(good, in_language(language, offer),
                                                                       'other map 0')
        yield ('2 before %s' % language,) + untouched(bad, in_language(language, '12/0/0'), 'refused 2')
        yield ('11 before %s' % language,) + untouched(good, in_language(language, '12/1/0'), 'refused 11')
        ours, data = good._replace(language=language), in_language(language, '12/0/0')
        yield ('%s is ours' % language, offered(ours, data),
               ('live 12', state('NTT', (1, 12, 0, 0, 0, 0, 0, 1))._replace(language=language),
                with_bytes(36864, data)))
        # Sections of the other tables have no language.
        yield ('%s and DCM' % language, offered(ours, section('DCM', '12/0/0'))[0], 'live 12')
    for at in range(3):
        for bit in range(8):
            other = bytes(byte ^ (1 << bit if place == at else 0) for place, byte in enumerate(LANGUAGE))
            yield ('language, byte %d, bit %d' % (at, bit),) + untouched(good, in_language(other, '12/0/0'),
                                                                         'other map 0')


def steps_5_and_6():
    """(what, VCM before, offer, answer, VCM after); the other tables, with a gathered version, stay."""
    for what, before, offer, words, after in (
            ('joins', BOTH, '9/0/2', 'stored 1', (1, 5, 1, 1, 9, 2, 3, 0)),
            ('joins, last one of two missing', BOTH, '9/2/2', 'stored 1', (1, 5, 1, 1, 9, 2, 6, 0)),
            ('drops an older one', BOTH, '10/3/3', 'stored 3', (1, 5, 1, 1, 10, 3, 8, 0)),
            ('drops a newer one', BOTH, '8/1/2', 'stored 2', (1, 5, 1, 1, 8, 2, 2, 0)),
            ('0 after 31', (1, 31, 1, 1, 30, 2, 1, 1), '0/0/1', 'stored 1', (1, 31, 1, 1, 0, 1, 1, 1)),
            ('0 after 31, at once', (1, 31, 1, 0, 0, 0, 0, 1), '0/0/0', 'live 0', (1, 0, 0, 0, 0, 0, 0, 0)),
            ('one bit from live', (1, 5, 1, 0, 0, 0, 0, 1), '21/0/1', 'stored 1', (1, 5, 1, 1, 21, 1, 1, 1)),
            ('one bit from gathered', BOTH, '25/1/2', 'stored 2', (1, 5, 1, 1, 25, 2, 2, 0)),
            ('0 when fresh', FRESH, '0/0/0', 'live 0', (1, 0, 0, 0, 0, 0, 0, 0)),
            ('0 of 1 when fresh', FRESH, '0/0/1', 'stored 1', (0, 0, 0, 1, 0, 1, 1, 1)),
            ('live at once', BOTH, '10/0/0', 'live 10', (1, 10, 0, 0, 0, 0, 0, 1)),
            ('nothing live, half 0', FRESH[:7] + (0,), '10/0/0', 'live 10', (1, 10, 0, 0, 0, 0, 0, 1)),
            ('completes 1', (1, 5, 3, 1, 9, 1, 2, 1), '9/0/1', 'live 9', (1, 9, 1, 0, 0, 0, 0, 0)),
            ('completes 2', (0, 0, 0, 1, 9, 2, 5, 0), '9/1/2', 'live 9', (1, 9, 2, 0, 0, 0, 0, 1)),
            ('completes 3', (1, 5, 0, 1, 9, 3, 7, 0), '9/3/3', 'live 9', (1, 9, 3, 0, 0, 0, 0, 1))):
        data = section('VCM', offer)
        start = STARTS['VCM'][1 - before[7]] + 1024 * int(offer.split('/')[1])
        yield (what, offered(state('VCM', before, BOTH), data),
               (words, state('VCM', after, BOTH), with_bytes(start, data)))


# --------------------------------------------------------------------- the wire

def wire():
    before = receiver.State(0x1234, tuple(table(tuple(range(at, at + 8))) for at in (1, 11, 21, 31, 41)), b'fra')
    as_bytes = '3412 0102030405060708 0B0C0D0E0F101112 15161718191A1B1C 1F20212223242526 292A2B2C2D2E2F30 667261'
    yield 'state as bytes', trials.state_bytes(before), bytes.fromhex(as_bytes)
    store = trials.store_of(32769, 200)
    yield 'store', ([store[at] for at in (0, 1, 2, 255, 256, 257, 32768)], len(store)), (
        [200, 231, 6, 169, 217, 248, 72], 32769)
    one = trials.Trial('', '', before, 40000, 7, (b'', b'\xC2\x30'), (None, None))
    yield 'trial as bytes', trials.request(one), bytes.fromhex(as_bytes + '409C0000 07 0200 0000 0200 C230')


def main():
    tried = [each for name in NAMES for each in c13(name)]
    for cases in (places, longest_sections, short_over_long, refusal_2, order_of_checks, languages, steps_5_and_6,
                  wire):
        tried.extend(cases())
    tried.append(('fresh', receiver.fresh(MAP, LANGUAGE), state()))
    return examples.report(tried)


if __name__ == '__main__':
    sys.exit(main())
