"""Mofrindi: self test of lineup.py, of the runs and of their comparison.

Run with: python3 tests/second/selftest/test_lineup.py

Inputs and outputs written by hand from document 01.  Prints one line; exit 1 if any is wrong.
"""

import os
import sys

sys.dont_write_bytecode = True
sys.path.insert(0, os.path.dirname(os.path.dirname(os.path.abspath(__file__))))

from compare import compare_lineup
from compare.compare_section import Failure
from generate import captures, growth, runs
from generate.pieces import Dice
from generate.run_parts import Claims, Run, unmet_claim
from program import labels, lineup, section as reading
from selftest import test_examples as examples
from selftest.test_tuning import C1, C7, C9, C10, C12, cds, dcm, mms, section, vcm

MAP = '12 34'           # the map number of the sections made by test_tuning.py
SLOW_RUNS = 250         # runs of which all 4,096 channels are asked

EMPTY = ('lineup=1\nmap=%d\nsections=%d\nrefused=%d\ncds=none\nmms=none\nvcm=none\ndcm=none\nntt=none\nchannels=0\n')

DOCUMENT_LINE = ('channel=3 kind=digital hidden=0 path=0 khz=63000 program=3 '
                 'system=2 inner=15 split=0 format=8 symbols=5056941')
C10_LINE = 'channel=8 kind=analogue hidden=0 path=0 khz=63000 standard=0 scrambled=1'


def printed(text, *sections):
    """What lineup prints for a map number and sections, as text."""
    return lineup.lineup(bytes.fromhex(text) + b''.join(sections)).decode('ascii')


def whole(numbers, *channels):
    """An output: map, sections, refused, then the versions; names aren't live where only four are given."""
    keys = ('map', 'sections', 'refused', 'cds', 'mms', 'vcm', 'dcm', 'ntt')
    lines = ['lineup=1'] + ['%s=%s' % pair for pair in zip(keys, numbers.split() + ['none'])]
    return '\n'.join(lines + ['channels=%d' % len(channels)] + list(channels)) + '\n'


# ------------------------------------------------------------------- document 01

WHOLE_DOCUMENT = b'''lineup=1
map=0
sections=0
refused=0
cds=none
mms=none
vcm=none
dcm=none
ntt=none
channels=0
'''


def document():
    yield 'input 00 00', lineup.lineup(b'\0\0'), WHOLE_DOCUMENT
    yield 'no bytes', lineup.lineup(b''), b'lineup=refused\n'
    for byte in (0, 0x12, 0xC2, 0xFF):
        yield 'one byte %02X' % byte, lineup.lineup(bytes([byte])), b'lineup=refused\n'
    plant = [section(cds(1, C1 + '00'), 5, 0, 0), section(mms(1, C12 + '00'), 5, 0, 0),
             section(vcm(C9), 5, 0, 0), section(dcm(*C7), 5, 0, 0)]
    yield 'the printed line', printed(MAP, *plant), whole('4660 4 0 5 5 5 5', DOCUMENT_LINE)
    yield ('the printed line, turned round', printed(MAP, *plant[::-1]),
           whole('4660 4 0 5 5 5 5', DOCUMENT_LINE))


# ----------------------------------------------------------------------- cutting

def cutting():
    """The lengths of what is offered."""
    for what, text, wanted in (
            ('nothing', '', []), ('1 byte', 'C2', [1]), ('2 bytes', 'C2 30', [2]), ('L = 0', 'C2 30 00', [3]),
            ('L = 0 twice', 'C2 30 00 C4 00 00', [3, 3]), ('L = 0, 1 byte', 'C2 30 00 C4', [3, 1]),
            ('L = 0, 2 bytes', 'C2 30 00 C4 30', [3, 2]), ('L = 2, 1 there', 'C2 30 02 00', [4]),
            ('L = 2', 'C2 30 02 00 00', [5]), ('L = 2, 1 more', 'C2 30 02 00 00 00', [5, 1]),
            ('upper bits of byte 1', 'FF F0 01 00 00', [4, 1]), ('L = 256', 'C2 31 00' + '00' * 256, [259]),
            ('L = 1022', 'C2 33 FE' + '00' * 1022 + 'C2', [1025, 1]),
            ('L = 4095', 'C2 3F FF' + '00' * 4095 + 'C2', [4098, 1]),
            ('L = 4095, 1 missing', 'C2 3F FF' + '00' * 4094, [4097]),
            ('L = 4095, none there', 'C2 3F FF', [3]), ('zeros', '00' * 7, [3, 3, 1])):
        data = bytes.fromhex(text)
        yield 'cut: ' + what, [len(each) for each in lineup.cut(data)], wanted
        yield 'cut: ' + what + ', all bytes', b''.join(lineup.cut(data)), data
        yield 'printed: ' + what, printed('00 01' + text), EMPTY % (1, len(wanted), len(wanted))
    for text, number in (('00 00', 0), ('00 01', 1), ('01 00', 256), ('12 34', 4660), ('FF FF', 65535)):
        yield 'map ' + text, printed(text), EMPTY % (number, 0, 0)


# --------------------------------------------------------------- small runs by hand

ONE = {'CDS': cds(1, C1 + '00'), 'MMS': mms(1, C12 + '00'), 'VCM': vcm(C9, C10), 'DCM': dcm(0, '8B')}


def plant(version=5, **bodies):
    """0 of 0 of every table; DCM defines 0 to 10."""
    tables = dict(ONE, **{name.upper(): body for name, body in bodies.items()})
    return [section(tables[name], version, 0, 0) for name in ('CDS', 'MMS', 'VCM', 'DCM')]


def kinds():
    """All kinds of channels, in a mixed order; those that are refused have no line."""
    records = ['000A 80 ABCD 00 0000 00',       # an application
               '0001 A1 0007 63 0003 63',       # hidden, path 1, an application whatever its references are
               '0008 31 1235 01 84 0000',       # hidden, path 1, analogue, standard 4, scrambled
               '0003 00 1234 02 0003 01',       # C9
               '0003 80 1234 02 0003 01',       # channel 3 again: only the first counts
               '0002 00 1234 00 0003 01',       # 19: carrier reference 0
               '0004 00 1234 03 0003 01',       # 19: no carrier 3
               '0005 00 1234 01 0003 02',       # 21: no mode 2
               '0006 01 1234 01 FFFF 01',       # hidden
               '0007 10 1234 01 03 0000',       # analogue
               '000B 00 1234 02 0003 01',       # 17: not defined
               '0000 20 1234 01 0000 01']       # channel 0, path 1
    yield 'kinds', printed(MAP, *plant(vcm=vcm(*records))), whole(
        '4660 4 0 5 5 5 5',
        'channel=0 kind=digital hidden=0 path=1 khz=57000 program=0 system=2 inner=15 split=0 format=8 '
        'symbols=5056941',
        'channel=1 kind=application hidden=1 path=1 application=7',
        DOCUMENT_LINE,
        'channel=6 kind=digital hidden=1 path=0 khz=57000 program=65535 system=2 inner=15 split=0 format=8 '
        'symbols=5056941',
        'channel=7 kind=analogue hidden=0 path=0 khz=57000 standard=3 scrambled=0',
        'channel=8 kind=analogue hidden=1 path=1 khz=57000 standard=4 scrambled=1',
        'channel=10 kind=application hidden=0 path=0 application=43981')
    yield ('4095', printed(MAP, *plant(vcm=vcm('0FFF 80 0001 00 0000 00'), dcm=dcm(4095, '81'))),
           whole('4660 4 0 5 5 5 5', 'channel=4095 kind=application hidden=0 path=0 application=1'))
    yield 'none defined', printed(MAP, *plant(dcm=dcm(0, '0B'))), whole('4660 4 0 5 5 5 5')
    yield 'no record', printed(MAP, *plant(vcm=vcm())), whole('4660 4 0 5 5 5 5')


def limits():
    for what, record, khz in (('C2', '01 0000 1518', 54000), ('C3', '01 0000 1517', None),
                              ('C4', '01 0000 9F50', 1002000), ('C4, 51', '01 0000 9F51', None)):
        records = vcm('0003 10 1235 01 00 0000')
        line = ['channel=3 kind=analogue hidden=0 path=0 khz=%d standard=0 scrambled=0' % khz] if khz else []
        yield (what, printed(MAP, *plant(cds=cds(1, record + '00'), vcm=records)),
               whole('4660 4 0 5 5 5 5', *line))


def counts():
    """What counts as a section, what as refused, and what is live."""
    sections = plant()
    both = whole('4660 4 0 5 5 5 5', DOCUMENT_LINE, C10_LINE)
    yield 'plain', printed(MAP, *sections), both
    yield 'repeats', printed(MAP, *(sections * 3)), both.replace('sections=4', 'sections=12')
    other_map = [section(vcm(C9, map_number=0x1235), 6, 0, 0),
                 section(dcm(0, '81', map_number=0x3412), 6, 0, 0)]
    yield 'other map', printed(MAP, *(sections + other_map)), both.replace('sections=4', 'sections=6')
    yield ('all of another map', printed('12 35', *sections), whole('4661 4 0 5 5 none none'))
    above = section(ONE['CDS'], 6, 0, 4)
    other_last = section(ONE['MMS'], 5, 0, 1)
    spoilt = sections[0][:-1] + bytes([sections[0][-1] ^ 1])
    refused = [above, other_last, spoilt, b'\xC2\x30\x00', b'\xC2\x3F']
    yield ('refused', printed(MAP, *(sections + refused)),
           both.replace('sections=4', 'sections=9').replace('refused=0', 'refused=5'))
    yield 'version 0', printed(MAP, *plant(0)), both.replace('=5\n', '=0\n')
    yield 'version 31', printed(MAP, *plant(31)), both.replace('=5\n', '=31\n')
    for at, name in enumerate(('cds', 'mms', 'vcm', 'dcm')):
        versions = ['5'] * 4
        versions[at] = 'none'
        yield ('without ' + name, printed(MAP, *(sections[:at] + sections[at + 1:])),
               whole('4660 3 0 ' + ' '.join(versions)))


def versions():
    """C13, and a version that takes the place of another."""
    def vcm_of(program, v, n, last):
        return section(vcm('000%d 00 1234 02 %04X 01' % (n + 3, program)), v, n, last)

    def line(number, program):
        changed = DOCUMENT_LINE.replace('channel=3', 'channel=%d' % number)
        return changed.replace('program=3', 'program=%d' % program)

    others = [plant()[at] for at in (0, 1, 3)]
    script = [vcm_of(10, 5, 0, 1), vcm_of(11, 5, 0, 1), vcm_of(12, 6, 0, 0), vcm_of(13, 5, 1, 1),
              vcm_of(14, 6, 0, 0), vcm_of(15, 5, 0, 1), vcm_of(16, 5, 0, 0), vcm_of(17, 7, 0, 4)]
    for count, version, refused, lines in (
            (2, 'none', 0, []), (3, 6, 0, [line(3, 12)]), (5, 6, 0, [line(3, 12)]),
            (6, 5, 0, [line(3, 15), line(4, 13)]), (8, 5, 2, [line(3, 15), line(4, 13)])):
        yield ('C13, %d offers' % count, printed(MAP, *(others + script[:count])),
               whole('4660 %d %d 5 5 %s 5' % (3 + count, refused, version), *lines))
    begun = others + [vcm_of(1, 8, 0, 0), vcm_of(2, 9, 0, 1)]
    yield 'partly replaced', printed(MAP, *begun), whole('4660 5 0 5 5 8 5', line(3, 1))
    yield ('wholly replaced', printed(MAP, *(begun + [vcm_of(3, 9, 1, 1)])),
           whole('4660 6 0 5 5 9 5', line(3, 2), line(4, 3)))
    yield ('replaced by fewer', printed(MAP, *(begun + [vcm_of(3, 9, 1, 1), vcm_of(4, 10, 0, 0)])),
           whole('4660 7 0 5 5 10 5', line(3, 4)))


# ------------------------------------------------------------------------ growth

def by_hand_grown():
    """Each kind of growth by hand on the printed line's plant."""
    grown = [
        examples.whole(0xC2, '00 01 01 01' + C1 + '02 40 01 AA 93 03 E6 00 00 93 05 05 00 00 AA BB', 0x00),
        examples.whole(0xC2, '00 01 01 02' + C12 + '01 93 00' + '40 00 93 03 A5 00 00 94 01 93', 0x10),
        examples.whole(0xC4, '00 00 12 34 00 00 00000000 01' + C9 + '92 03 E6 00 00 93 04 E5 00 00 01', 0x20),
        examples.whole(0xC4, '00 01 12 34 0002 03 83 05 81' + '00 00 FF 02 93 03 93 03 65 00 00', 0x30)]
    yield 'grown by hand', printed(MAP, *grown), whole('4660 4 0 5 5 5 5', DOCUMENT_LINE)


def without_lists(each):
    """Table, map, version, number and last, and the records; of a record's list nothing."""
    content = reading.read(each)
    if content.table == 'DCM':
        return content[:6], content.records
    if content.table == 'NTT':
        return content[:6], [each[record.start - 4:record.start + record.size] for record in content.records]
    return content[:6], [record._replace(descriptors=[]) for record in content.records]


def growing():
    """Every way on sections that read right: taken apart and grown they stay what they are."""
    dice = Dice(3)
    sections = plant() + [section(ONE[name], 7, 1, 3) for name in ONE] + [examples.whole(
        0xC4, '00 00 12 34 20 00 00000000 02' + C9 + '00' + C10 + '02 93 00 40 01 AA 93 03 05 00 00 41 00')]
    for at, each in enumerate(sections):
        yield 'taken apart, %d' % at, growth.draft_of(each).whole(), each
        before = without_lists(each)
        for said, way in growth.WAYS.items():
            grown = growth.grown_section(dice, each, way)
            yield '%s, %d' % (said, at), (without_lists(grown), len(grown) <= 1024), (before, True)
    yield 'to 1,024 bytes', len(growth.grown_section(dice, sections[0], growth.grow_full)), 1024
    yield 'not what reads wrong', growth.grown_section(dice, b'\xC2\x30\x00'), b'\xC2\x30\x00'
    data = bytes.fromhex(MAP) + b''.join(plant()) + b'\xC2\x30\x00\xC2\x3F'
    grown = growth.grown_input(dice, data)
    yield 'a grown input', lineup.lineup(grown), lineup.lineup(data)
    yield 'a grown input is longer', len(grown) > len(data), True


# -------------------------------------------------------------------- the shortcut

def slow_lineup(data):
    """The same with all 4,096 channel numbers asked."""
    found = lineup.outcome(data)
    channels = lineup.channel_lines(found.check, range(4096))
    return lineup.as_bytes(lineup.head_lines(found) + ['channels=%d' % len(channels)] + channels)


def shortcut():
    """On runs of all families, and on as many random ones."""
    directed = [run for run in runs.batch(5, 0) if 2 <= len(run.data) < 60000 and run.text == 'lineup']
    some = directed[::2 * len(directed) // SLOW_RUNS] + runs.batch(6, SLOW_RUNS // 2, directed=False)
    lines = 0
    for run in some:
        fast = lineup.lineup(run.data)
        lines += fast.count(b'\nchannel=')
        yield 'all channels: %s: %s' % (run.family, run.name), fast, slow_lineup(run.data)
    yield 'there are lines', lines > 300, True


# ------------------------------------------------------- claims, twins, the comparison

def failure(batch, data):
    try:
        return compare_lineup.outputs(batch, data)
    except Failure as said:
        return str(said).split(':')[0]


def comparison():
    one = Run('family', 'name', b'\x01\x02\x03', None, None)
    yield 'run as bytes', runs.request(one), bytes.fromhex('00 03000000 010203')
    yield 'run for labels', runs.request(one._replace(text='labels')), bytes.fromhex('01 03000000 010203')
    yield 'outputs', failure([one, one], bytes.fromhex('02000000 4142 00000000')), [b'AB', b'']
    for data in ('', '020000', '02000000', '02000000 41', 'FFFFFFFF 41', '01000000 41 0000'):
        yield 'too little, ' + data, failure([one, one], bytes.fromhex(data)), 'the program writes too little'
    yield 'too much', failure([one], bytes.fromhex('01000000 41 42')), 'the program writes too much'
    text = b'channels=1\nchannel=3 kind=x\n'
    for what, claims, met in (
            ('none', None, True), ('whole', Claims(text, (), ()), True),
            ('other', Claims(text + b'\n', (), ()), False),
            ('line', Claims(None, ('channel=3 kind=x', 'channels=1'), ()), True),
            ('part of a line', Claims(None, ('channel=3',), ()), False),
            ('silent', Claims(None, (), (30, 1, 0)), True), ('not silent', Claims(None, (), (3,)), False)):
        yield 'claims: ' + what, unmet_claim(claims, text) is None, met
    yield ('first difference', compare_lineup.first_difference(b'a\nb\n', b'a\nc\n'),
           ['line 2 of the program: c', 'line 2 of lineup.py:   b'])
    yield ('one line fewer', compare_lineup.first_difference(b'a\nb\n', b'a\n'),
           ['line 2 of the program: ', 'line 2 of lineup.py:   b'])
    yield ('no newline', compare_lineup.first_difference(b'a\n', b'a'),
           ['line 2 of the program: (no more)', 'line 2 of lineup.py:   '])


def judged():
    """A batch of four: an output differs, one claim isn't met, and a grown run differs from its twin."""
    data = bytes.fromhex(MAP) + b''.join(plant())
    right = lineup.lineup(data)
    batch = [Run('f', 'plain', data, None, None), Run('f', 'grown', data, 0, None),
             Run('f', 'not grown', data[:-1], 0, None), Run('f', 'claims', data, None, Claims(b'', (), ()))]
    found = compare_lineup.Findings()
    compare_lineup.judge(found, batch, [right, right, right, right])
    # The third differs from lineup.py's, whose own differs from that of its twin; the fourth claims nonsense.
    yield 'judged', (found.runs, found.differing, found.unmet), (4, 1, 2)
    yield 'offers counted', dict(found.offers), {'live': 15, 'refused 3': 1}
    twice = compare_lineup.Findings()
    compare_lineup.judge(twice, batch[:2], [right, right[:-1]])
    yield 'a twin of the program', (twice.differing, twice.unmet), (1, 1)


def batches():
    """A seed gives the same runs; every twin stands before its grown run and has the same map number."""
    batch = runs.batch(9, 60, directed=False)
    yield 'the same again', runs.batch(9, 60, directed=False), batch
    yield 'so many', sum(run.text == 'lineup' for run in batch), 60
    again = [run for run in batch if run.text == 'labels']
    yield 'some for labels', 5 <= len(again) <= 15, True
    yield 'all of them there', all(run.data in [each.data for each in batch[:60]] for run in again), True
    yield 'twins of one text', all(batch[run.twin].text == run.text for run in batch if run.twin is not None), True
    twins = [(at, run) for at, run in enumerate(batch) if run.twin is not None]
    yield 'twins', all(run.twin < at and batch[run.twin].data[:2] == run.data[:2] for at, run in twins), True
    yield 'some twins', len(twins) > 5, True
    sizes = [len(each) for each in compare_lineup.chunks(1, 2 * compare_lineup.CHUNK + 10)]
    yield 'chunks', (sizes[0] > compare_lineup.CHUNK, [size >= wanted for size, wanted in zip(
        sizes[1:], (compare_lineup.CHUNK, 10))]), (True, [True, True])


def captured():
    made = {name: make() for name, make in captures.CAPTURES.items()}
    yield 'the example', lineup.lineup(made['example']).decode(), whole(
        '258 5 0 5 5 5 5', DOCUMENT_LINE, C10_LINE,
        'channel=10 kind=application hidden=0 path=0 application=7')
    yield 'grown and plain', lineup.lineup(made['grown']), lineup.lineup(made['plain'])
    full = [len(each) for each in lineup.cut(made['full'][2:])]
    yield 'full sections', sum(1000 < size <= 1024 for size in full) >= 4, True
    yield '408 channels', b'\nchannels=408\n' in lineup.lineup(made['full']), True
    unfinished = list(lineup.cut(made['damaged'][2:]))[-1]
    yield 'unfinished', len(unfinished) < 3 + reading.section_length(unfinished), True
    yield from captured_names(made)
    yield 'made again', {name: make() for name, make in captures.CAPTURES.items()}, made


def captured_names(made):
    """What the captures of names are for."""
    shown = {name: labels.labels(data).decode().splitlines() for name, data in made.items() if data[1:]}
    yield 'grown and plain, labels', shown['grown'], shown['plain']
    yield 'names, versions', [shown[name][2] for name in ('names', 'badnames', 'unnamed', 'full')], [
        'ntt=6', 'ntt=6', 'ntt=none', 'ntt=none']
    yield 'a name', shown['names'][4], 'channel=2 label=00094368616E6E656C2032'
    yield 'no name', shown['names'][5], 'channel=3 label='
    yield 'an application\'s name', 'channel=27 label=000A4368616E6E656C203237' in shown['names'], True
    yield 'effectors', 'channel=4 label=870006426F6C64203488' in shown['names'], True
    yield '16 bits', 'channel=6 label=3F0E041A0430043D0430043B00200036' in shown['names'], True
    yield 'the older names', shown['badnames'][4:], shown['names'][4:]
    yield 'no names', all(line.endswith('label=') for line in shown['unnamed'][4:]), True
    french = b'\xC3' in made['names'] and b'fra\x06' in made['names']
    yield 'in two languages', (french, b'eng\x06' in made['names']), (True, True)


def main():
    tried = []
    for cases in (document, cutting, kinds, limits, counts, versions, by_hand_grown, growing, shortcut,
                  comparison, judged, batches, captured):
        tried.extend(cases())
    return examples.report(tried)


if __name__ == '__main__':
    sys.exit(main())
