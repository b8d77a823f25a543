"""Mofrindi: self test of label.py, and of the wire of labels.

Run with: python3 tests/second/selftest/test_label.py

Plants, places and answers written by hand from request 2026-01.  Prints one line; exit 1 if any is wrong.
"""

import os
import sys

sys.dont_write_bytecode = True
sys.path.insert(0, os.path.dirname(os.path.dirname(os.path.abspath(__file__))))

from compare import compare_tuner
from compare.compare_section import Failure
from program import label, section as reading, tuning
from selftest import test_examples as examples
from selftest.test_tuning import (BAD, NAMES, NO_NAMES, PLANT, STARTS, TUNED, another, cds, dcm, mms, ntt, section,
                                  state, store, vcm, words)

FALLBACK = b'no name'
HALVES = ((0,) * 5, (1,) * 5)


def name(text, number=0x1234, flag=0):
    """A record with this text in mode zero and an empty list."""
    data = text.encode('ascii')
    return '%02X %04X %02X 00 %02X %s 00' % (0x80 * flag, number, len(data) + 2, len(data), data.hex())


def shown_text(text):
    return b'\0' + bytes([len(text)]) + text.encode('ascii')


def answered(before, lent, number, fallback=FALLBACK):
    """(answer in words, bytes shown); the name by its place in the store."""
    answer = label.question(before, lent, number)
    shown = label.shown(answer, lent, fallback)
    if isinstance(answer, reading.Refusal):
        return 'refused %d' % answer.number, shown
    if isinstance(answer, label.Named):
        return 'named', lent[answer.start:answer.start + answer.size] == shown and shown
    return 'fallback', shown


def wanted(answer, fallback=FALLBACK):
    """A number is a refusal, a text a name, and None the fallback."""
    if isinstance(answer, int):
        return 'refused %d' % answer, b''
    return ('fallback', fallback) if answer is None else ('named', shown_text(answer))


def asked(what, before, lent, answers, fallback=FALLBACK):
    for number, answer in answers.items():
        copy = bytearray(lent)
        yield ('%s, channel %d' % (what, number), (answered(before, copy, number, fallback), copy),
               (wanted(answer, fallback), lent))


def plant_cases(what, answers, **tables):
    """The plant with these tables, names among them, in half 0 and in half 1."""
    plant = dict(PLANT, **{each.upper(): bodies for each, bodies in tables.items()})
    for halves in HALVES:
        yield from asked(what, state(plant, halves), store(plant, halves), answers)


# Channels 3 (source 0x1234), 8 (source 0x1235), 10 (application 7); 2 and 4 are defined and have no record.
CHANNELS = [vcm(examples.CHANNEL, examples.ANALOGUE, '000A 80 0007 00 0000 00')]
DEFINED = [dcm(2, '83 03 81 01 81')]


def channel_cases(what, answers, names, **more):
    return plant_cases(what, answers, ntt=names, vcm=CHANNELS, dcm=DEFINED, **more)


# ------------------------------------------------------------------- names and fallbacks

def searches():
    ours, other = name('One'), name('Two', 0x1235)
    application = name('Radio', 7, 1)
    none = {3: None, 8: None, 10: None, 2: 18, 4: 18, 5: 17, 9: 17, 0: 17, 4095: 17, 4096: 14, 65535: 14}
    for what, names, answers in (
            ('no records', [ntt()], {}), ('all', [ntt(ours, other, application)], {3: 'One', 8: 'Two', 10: 'Radio'}),
            ('one', [ntt(other)], {8: 'Two'}), ('the first of two', [ntt(ours, name('Late'))], {3: 'One'}),
            ('turned round', [ntt(name('Late'), ours)], {3: 'Late'}),
            ('in the lowest section', [ntt(other), ntt(ours), ntt(name('Late'))], {3: 'One', 8: 'Two'}),
            ('in the fourth section', [ntt(), ntt(other), ntt(), ntt(ours)], {3: 'One', 8: 'Two'}),
            ('the other flag', [ntt(name('App', 0x1234, 1), name('Src', 7))], {}),
            ('the other flag first', [ntt(name('App', 0x1234, 1), ours, name('Src', 7), application)],
             {3: 'One', 10: 'Radio'}),
            ('near numbers', [ntt(*[name('Near', 0x1234 ^ 1 << bit) for bit in range(1, 16)], ours)], {3: 'One'}),
            ('bytes turned round', [ntt(name('Turned', 0x3412))], {}),
            ('a channel number', [ntt(name('Three', 3))], {})):
        yield from channel_cases('names: ' + what, {**none, **answers}, names)


def first_records():
    """Flag and number are those of the channel's first record."""
    digital, application = '0003 00 0007 02 0003 01', '0003 80 0007 00 0000 00'
    names = [ntt(name('Src', 7), name('App', 7, 1))]
    for what, answer, records in (('digital', 'Src', [vcm(digital, application)]),
                                  ('application', 'App', [vcm(application, digital)]),
                                  ('sections', 'App', [vcm(), vcm(application), vcm(digital)])):
        yield from plant_cases('first record: ' + what, {3: answer}, vcm=records, ntt=names)
    yield from plant_cases('source 0', {3: 'Zero'}, vcm=[vcm('0003 00 0000 02 0003 01')], ntt=[ntt(name('Zero', 0))])


def not_19_to_21():
    """No carrier, too low a carrier, no mode: tuning refuses, the label doesn't."""
    for what, number, tables in (('no carrier', 19, {'CDS': [cds(1)]}),
                                 ('too low', 20, {'CDS': [cds(2, '01 0000 1388 00')]}),
                                 ('no mode', 21, {'MMS': [mms(2, examples.MODE + '00')]})):
        plant = dict(PLANT, NTT=[ntt(name('One'))], **tables)
        yield from asked(what, state(plant), store(plant), {3: 'One', 4: 18})
        yield what + ', tuning', words(tuning.tune(state(plant), store(plant), 3)), 'refused %d' % number


def fallbacks():
    """Every byte of what is lent, none too; names that are only gathered don't matter."""
    plant = dict(PLANT, NTT=[ntt(name('One'))])
    for fallback in (b'', b'3', bytes(300)):
        said = '%d bytes' % len(fallback)
        yield from asked('fallback, ' + said, state(PLANT), store(PLANT), {3: None, 4: 18, 5: 17}, fallback)
        yield from asked('named, ' + said, state(plant), store(plant), {3: 'One', 4: 18}, fallback)
        for values in (NO_NAMES, (0, 0, 0, 0, 0, 0, 0, 0), (0, 0, 0, 1, 5, 1, 1, 1), (0, 0, 0, 1, 5, 3, 7, 0)):
            yield from asked('not live %s, %s' % (values, said), state(plant, NTT=values), store(plant), {3: None},
                             fallback)
    live_and_gathered = state(plant, NTT=(1, 5, 0, 1, 9, 1, 1, 0))
    yield from asked('live and gathered', live_and_gathered, store(plant), {3: 'One'})


# ----------------------------------------------------------------------- refusals

def refused(number, channels):
    return {channel: number for channel in channels}


def order():
    plant = dict(PLANT, NTT=[ntt(name('One'))])
    for length in (0, 32768, 40959):
        yield from asked('store of %d' % length, state(plant), store(plant)[:length], refused(1, (3, 0, 4096)))
        yield from asked('1 before 2', state(plant, NTT=(2,) + (0,) * 7), store(plant)[:length], refused(1, (3, 4096)))
    for each in STARTS:
        for what, values in BAD:
            yield from asked('%s, %s' % (what, each), state(plant, **{each: values}), store(plant),
                             refused(2, (3, 4096)))
    hurt = store(plant)
    hurt[32768:32776] = bytes(8)
    for each in NAMES:
        absent = state(plant, **{each: (0,) * 8})
        answers = {**refused(15, (3, 0, 4095)), **refused(14, (4096, 65535))}
        yield from asked('15, ' + each, absent, store(plant), answers)
        yield from asked('15 before 16 of names, ' + each, absent, hurt, answers)
        broken = store(plant)
        broken[STARTS[each][0] + 7] ^= 4
        yield from asked('16, ' + each, state(plant), broken, {**refused(16, (3, 0, 4095)), **refused(14, (4096,))})
        yield from asked('16 without names, ' + each, state(PLANT), broken, refused(16, (3,)))


def broken_names():
    """Each of four places, in many ways: 16 for every label, and tuning as it was."""
    bodies = [ntt(name('One')), ntt(), ntt(name('Three', 7)), ntt()]
    plant = dict(PLANT, NTT=bodies)
    yield from asked('four sections', state(plant), store(plant), {3: 'One', 5: 17})
    for number, half in ((number, half) for number in range(4) for half in (0, 1)):
        halves = (0, 0, 0, 0, half)
        start = STARTS['NTT'][half] + 1024 * number
        right = section(bodies[number], 5, number, 3)
        for what, data in (('zeros', bytes(1024)), ('CRC', right[:-1] + bytes([right[-1] ^ 1])),
                           ('version', section(bodies[number], 6, number, 3)),
                           ('number', section(bodies[number], 5, (number + 1) % 4, 3)),
                           ('last', section(bodies[number], 5, number, 4)),
                           ('another language', section(ntt(language=b'fra'), 5, number, 3)),
                           ('no text', section(ntt('00 1234 00 00'), 5, number, 3)),
                           ('odd 3F', section(ntt('00 1234 03 3F 01 41 00'), 5, number, 3)),
                           ('a VCM', another('VCM', n=number, last=3))):
            lent = store(plant, halves)
            lent[start:start + len(data)] = data
            before = state(plant, halves)
            said = '%s, %d, half %d' % (what, number, half)
            yield from asked(said, before, lent, {**refused(16, (3, 4, 5)), **refused(14, (4096,))})
            yield said + ', tuning', words(tuning.tune(before, lent, 3)), TUNED
        # Bytes behind the section, the other half, and what stands behind the last place.
        lent = store(plant, halves, 50000)
        other = STARTS['NTT'][1 - half]
        lent[other:other + 4096] = bytes(4096)
        lent[start + len(right):start + 1024] = bytes(1024 - len(right))
        lent[40960:] = bytes(50000 - 40960)
        yield from asked('no matter, %d' % number, state(plant, halves), lent, {3: 'One'})
    other = state(plant)._replace(language=b'fra')
    yield from asked('the state\'s language', other, store(plant), refused(16, (3,)))
    yield 'the state\'s language, tuning', words(tuning.tune(other, store(plant), 3)), TUNED


def places():
    """Where the name begins and how long it is, counted out by hand."""
    plant = dict(PLANT, NTT=[ntt(), ntt(name('x', 1), name('One'))])
    # Header 8, count 1, record 4 + 3 and its list 1, then the four bytes in front of the name.
    for half, start in ((0, 32768 + 1024), (1, 36864 + 1024)):
        halves = (0, 0, 0, 0, half)
        yield ('place, half %d' % half, label.question(state(plant, halves), store(plant, halves), 3),
               label.Named(start + 8 + 1 + 8 + 4, 5))


# ----------------------------------------------------------------------- the wire

def wire():
    for what, answer, shown, data in (
            ('refused', reading.Refusal(16), b'', '00 10 00000000 00000000 00000000'),
            ('named', label.Named(0x8123, 5), b'\0\3One', '01 00 23810000 05000000 05000000 00034F6E65'),
            ('fallback', label.Fallback(), b'no', '02 00 00000000 00000000 02000000 6E6F'),
            ('empty', label.Fallback(), b'', '02 00 00000000 00000000 00000000')):
        found = compare_tuner.Label(answer, shown)
        yield what + ' as bytes', compare_tuner.label_bytes(found), bytes.fromhex(data)
        whole = compare_tuner.Wire(bytes.fromhex(data) + b'rest')
        yield what + ' from the wire', (whole.label(), whole.take(4)), (bytes.fromhex(data), b'rest')
    words_of = [compare_tuner.said(compare_tuner.Label(*each)) for each in (
        (reading.Refusal(1), b''), (label.Named(0, 1), b'\x80'), (label.Fallback(), b'x'), (label.Fallback(), b''))]
    yield 'in words', words_of, ['label: refused 1', 'label: named', 'label: fallback', 'label: empty fallback']
    try:
        compare_tuner.Wire(bytes(13)).label()
        said = None
    except Failure as failure:
        said = str(failure).split(':')[0]
    yield 'too little', said, 'the program writes too little'


def claims():
    named = compare_tuner.Label(label.Named(0, 1), b'\x80')
    for claim, met in ((None, True), (b'\x80', True), (b'\x81', False), (label.Fallback(), False),
                       (reading.Refusal(16), False), (label.Named(0, 1), True)):
        yield 'claim %s' % (claim,), compare_tuner.meets(claim, named), met
    empty = compare_tuner.Label(label.Fallback(), b'')
    for claim, met in ((b'', False), (label.Fallback(), True), (reading.Refusal(18), False)):
        yield 'claim %s of a fallback' % (claim,), compare_tuner.meets(claim, empty), met


def main():
    tried = []
    for cases in (searches, first_records, not_19_to_21, fallbacks, order, broken_names, places, wire, claims):
        tried.extend(cases())
    return examples.report(tried)


if __name__ == '__main__':
    sys.exit(main())
