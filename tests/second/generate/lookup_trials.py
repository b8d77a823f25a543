"""Mofrindi: directed trials of tuning: the searches, the frequencies, and refusals 17 to 21.

Every answer is claimed, as it follows by hand from document 01.
"""

import itertools

from generate.plants import (EMPTY, FIRST_CHANNEL, SECTIONS, STANDARD, STANDARD_MODES, Body, analogue, application,
                             asks, both_ways, build, by10, by125, carrier_at, carrier_word, carriers, digital,
                             live_table, live_tables, mode, padded, plant, shifted_plant, spans, standard,
                             standard_answer, standard_asks, standard_body, trial, with_lists)
from generate.trials import MOST_STORE
from program.receiver import MOST_LAST, ORDER, PLACE_BYTES, STORE_BYTES, place_start
from program.section import CDS, DCM, FORMATS, INNER_CODINGS, MMS, SYSTEMS, VCM
from program.tuning import NEEDED, Analogue, Application, Digital, ModeRecord

# ------------------------------------------------------------ frequencies and units

C12 = ModeRecord(2, 15, 0, 8, 5056941)
ALL_DEFINED = [Body(0, spans('FF' * 32))]       # 32 x 127 channels: 0 to 4063
ONE_MODE = [Body(1, [mode(C12)])]

# (kHz, carriers, spacing, first, k): carrier k of such a record is at so many kHz.  Within the limits:
REACHED = [
    (54000, 1, by10(0), by10(5400), 0), (54010, 1, by10(0), by10(5401), 0),
    (54000, 1, by125(1), by125(432), 0), (54125, 1, by125(1), by125(433), 0),
    (54000, 2, by125(430), by10(25), 1), (54010, 2, by125(430), by10(26), 1),
    (54000, 28, by10(200), by10(0), 27), (54005, 14, by10(1), by125(431), 13),
    (54000, 2, by10(1), by10(5399), 1), (54000, 255, by10(0), by10(5400), 254),
    (54000, 201, by10(27), by10(0), 200), (54000, 217, by125(2), by10(0), 216),
    (57000, 2, by125(48), by125(456), 0), (63000, 2, by125(48), by125(456), 1),
    (327670, 1, by10(0), by10(32767), 0), (709360, 65, by10(1024), by10(5400), 64),
    (967670, 2, by125(5120), by10(32767), 1), (217830, 2, by10(16383), by10(5400), 1),
    (1001875, 1, by10(0), by125(8015), 0), (1002000, 1, by10(0), by125(8016), 0),
    (1001990, 11, by10(7020), by10(29999), 10), (1002000, 11, by10(7020), by10(30000), 10),
    (1001990, 2, by125(5616), by10(29999), 1), (1002000, 2, by125(5616), by10(30000), 1),
    (1001995, 13, by10(1), by125(8015), 12), (1002000, 2, by125(1), by125(8015), 1),
    (1002000, 255, by125(0), by125(8016), 254), (1002000, 159, by125(48), by125(432), 158),
    (54005, 2, by125(1), by10(5388), 1), (1001995, 2, by125(5617), by10(29987), 1),
]
# Outside them:
NOT_REACHED = [
    (0, 1, by10(0), by10(0), 0), (0, 2, by125(0), by125(0), 1), (10, 1, by10(0), by10(1), 0),
    (125, 1, by10(0), by125(1), 0), (53980, 1, by10(0), by10(5398), 0), (53990, 1, by10(0), by10(5399), 0),
    (53750, 1, by10(0), by125(430), 0), (53875, 1, by10(0), by125(431), 0),
    (53990, 2, by125(430), by10(24), 1), (53990, 2, by10(5390), by10(9), 1),
    (53995, 13, by10(1), by125(431), 12), (53990, 255, by10(0), by10(5399), 254),
    (53990, 2, by10(1), by10(5399), 0), (52000, 27, by10(200), by10(0), 26),
    (1002125, 1, by10(0), by125(8017), 0), (1002250, 1, by10(0), by125(8018), 0),
    (1002010, 11, by10(7020), by10(30001), 10), (1002010, 2, by125(5616), by10(30001), 1),
    (1002005, 14, by10(1), by125(8015), 13), (1002010, 2, by10(1), by125(8016), 1),
    (1002125, 3, by125(1), by125(8015), 2), (1002125, 255, by125(0), by125(8017), 254),
    (1105000, 1, by10(0), by125(8840), 0), (4095875, 1, by10(0), by125(32767), 0),
    (17000000, 69, by125(2000), by125(0), 68), (41612820, 255, by10(16383), by10(0), 254),
    (53995, 2, by125(1), by10(5387), 1), (1002005, 2, by125(5617), by10(29988), 1),
    (4349000, 2, by125(2026), by125(32766), 1), (524256125, 255, by125(0x3FFF), by125(0x7FFF), 254),
]


def at_index(count, k, low):
    """(first index, reference) with the record as low or as high as it goes."""
    first = 1 if low else 256 - count
    return first, first + k


def frequencies(dice):
    """Every carrier of the two lists, low and high in the indices, digital and analogue."""
    for good, cases in ((True, REACHED), (False, NOT_REACHED)):
        for (khz, count, spacing, first_khz, k), low in itertools.product(cases, (True, False)):
            first, reference = at_index(count, k, low)
            whole = plant(cds=[Body(first, [carriers(count, spacing, first_khz)])], mms=ONE_MODE,
                          vcm=[Body(0, [digital(3, reference, 3, 1), analogue(8, reference, 2, 1)])],
                          dcm=ALL_DEFINED)
            answers = {3: Digital(0, 0, khz, 3, C12), 8: Analogue(0, 0, khz, 2, 1)} if good else {3: 20, 8: 20}
            yield trial(dice, 'frequencies', '%d kHz, carrier %d of %d from index %d' % (khz, k, count, first),
                        build(dice, whole), asks(answers))


def with_references(references, mode_index=1):
    """A VCM with analogue channel 100 + r and digital channel 400 + r for each carrier reference r."""
    return ([Body(0, [analogue(100 + r, r) for r in references])]
            + [Body(0, [digital(400 + r, r, r, mode_index) for r in references])])


def reference_answers(references, khz_of, wrong):
    """khz_of gives kHz or the number of a refusal for a reference; without it the answer is wrong."""
    answers = {}
    for r in references:
        khz = khz_of.get(r, wrong)
        refused = khz < 22
        answers[100 + r] = khz if refused else Analogue(0, 0, khz, 0, 0)
        answers[400 + r] = khz if refused else Digital(0, 0, khz, r, C12)
    return answers


# Records behind each other in all units, and where their carriers are; the last one is too low.
UNITS = [carriers(3, by10(600), by125(456)), carriers(1, by125(48), by10(30000)),
         carriers(5, by125(48), by10(20001)), carriers(2, by10(1), by10(6000)),
         carriers(3, by125(1), by125(800)), carriers(1, by10(0), by10(5399))]
UNITS_KHZ = (57000, 63000, 69000, 300000, 200010, 206010, 212010, 218010, 224010, 60000, 60010,
             100000, 100125, 100250, 20)


def units(dice):
    """k = 0, 1 and last of records in a row, in one section and over four; beside them no carrier."""
    references = range(0, 40)
    for first in (1, 7, 20):
        khz_of = {first + k: khz for k, khz in enumerate(UNITS_KHZ)}
        whole = plant(cds=[Body(first, UNITS)], mms=ONE_MODE, vcm=with_references(references), dcm=ALL_DEFINED)
        yield from both_ways(dice, 'units', 'first index %d' % first, whole,
                             reference_answers(references, khz_of, 19))
    # The same records over sections that begin anywhere: sections don't count on from each other.
    bodies = [Body(21, UNITS[:2]), Body(9, UNITS[2:4]), Body(30, UNITS[4:5]), Body(1, UNITS[5:])]
    khz_of = dict(zip([21, 22, 23, 24, 9, 10, 11, 12, 13, 14, 15, 30, 31, 32, 1], UNITS_KHZ))
    whole = plant(cds=bodies, mms=ONE_MODE, vcm=with_references(references), dcm=ALL_DEFINED)
    yield from both_ways(dice, 'units', 'four sections', whole, reference_answers(references, khz_of, 19))


def c6(dice):
    """All carriers of C6 are far too high; the record reads."""
    record = carriers(255, by125(0x3FFF), by125(0x7FFF))
    for r in (1, 2, 128, 254, 255):
        whole = plant(cds=[Body(1, [record])], mms=ONE_MODE, dcm=ALL_DEFINED,
                      vcm=[Body(0, [digital(3, r, 3, 1), analogue(8, r), application(9, 7, carrier=r)])])
        yield from both_ways(dice, 'C6', 'carrier %d' % (r - 1), whole,
                             {3: 20, 8: 20, 9: Application(0, 0, 7), 10: 18})


# --------------------------------------------------- overlaps: the first match ends the search

def any_combination(cover, answer):
    """Each of four sections covers the index or channel in one of the ways, or not: the first one counts.

    cover gives the body for a section and a way, way 0 for none; answer gives the answers by the first
    (section, way) that covers, or by None.
    """
    for count in range(1, SECTIONS + 1):
        for combination in itertools.product(range(3), repeat=count):
            covering = [(s, way) for s, way in enumerate(combination) if way]
            yield (' '.join(map(str, combination)), [cover(s, way) for s, way in enumerate(combination)],
                   answer(covering[0] if covering else None))


def overlapping_carriers(dice):
    """Index 5 in up to four sections: not there, good, or outside the limits."""
    def cover(s, way):
        if way == 0:
            return (EMPTY[CDS], Body(1, [carriers(4, by10(0), by10(6000))]), Body(6, [carrier_at(70000)]),
                    Body(3, [carrier_at(70000)]))[s]
        # The carrier is the first, in the middle, the last of a record, or in the second record.
        good, bad = 80000 + 1000 * s, (50000, 1002125, 53990, 53875)[s]
        khz = good if way == 1 else bad
        return (Body(5, [carriers(3, by125(8), carrier_word(khz))]),
                Body(4, [carriers(3, by10(100), carrier_word(khz - 1000))]),
                Body(3, [carriers(3, by125(4), carrier_word(khz - 1000))]),
                Body(4, [carrier_at(70000), carrier_at(khz)]))[s]

    def answer(first):
        if first is None:
            return {3: 19, 8: 19}
        s, way = first
        khz = 80000 + 1000 * s
        return {3: Digital(0, 0, khz, 3, C12), 8: Analogue(0, 0, khz, 0, 0)} if way == 1 else {3: 20, 8: 20}

    for said, bodies, answers in any_combination(cover, answer):
        whole = plant(cds=bodies, mms=ONE_MODE, vcm=[Body(0, [digital(3, 5, 3, 1), analogue(8, 5)])],
                      dcm=ALL_DEFINED)
        yield trial(dice, 'overlapping carriers', 'carrier 5: ' + said, build(dice, whole), asks(answers))


def overlapping_modes(dice):
    """Index 5 in up to four sections, in one of two ways, or not."""
    def values(s, way):
        return ModeRecord(2, 15, way - 1, s, 1000 * s + way)

    def cover(s, way):
        other, this = mode(ModeRecord(4, 1, 0, 9, 77)), mode(values(s, way) if way else C12)
        if way == 0:
            return (EMPTY[MMS], Body(1, [other] * 4), Body(6, [other]), Body(3, [other]))[s]
        return (Body(5, [this, other]), Body(4, [other, this, other]), Body(3, [other, other, this]),
                Body(1, [other] * 4 + [this] * way))[s]

    def answer(first):
        return {3: 21 if first is None else Digital(0, 0, 57000, 3, values(*first)),
                8: Analogue(0, 0, 63000, 0, 0)}

    for said, bodies, answers in any_combination(cover, answer):
        whole = plant(mms=bodies, vcm=[Body(0, [digital(3, 1, 3, 5), analogue(8, 2)])], dcm=ALL_DEFINED)
        yield trial(dice, 'overlapping modes', 'mode 5: ' + said, build(dice, whole), asks(answers))


def overlapping_ranges(dice):
    """Channel 30 in up to four sections: not there, defined (1), or not (2); first, middle or last of a range."""
    def cover(s, way):
        if way == 0:
            return (EMPTY[DCM], Body(20, spans('8A')), Body(31, spans('84')), Body(0, spans('9E')))[s]
        top = '8' if way == 1 else '0'
        return (Body(30, spans(top + '4')), Body(28, spans(top + '4')), Body(27, spans(top + '4')),
                Body(20, spans('05 85 %s1 84' % top)))[s]

    def answer(first):
        if first is None or first[1] == 2:
            return {30: 17}
        return {30: Digital(0, 0, 57000, 3, C12)}

    for said, bodies, answers in any_combination(cover, answer):
        whole = plant(vcm=[Body(0, [digital(30, 1, 3, 1)])], dcm=bodies)
        yield trial(dice, 'overlapping ranges', 'channel 30: ' + said, build(dice, whole), asks(answers))


# Records for one channel number in all manners, against the standard plant with one more carrier, 31, that
# is too low: (what, record of a number, answer).
MANNERS = [
    ('digital', lambda n: digital(n, 1, 900, 1), Digital(0, 0, 57000, 900, STANDARD_MODES[0])),
    ('digital hidden', lambda n: digital(n, 3, 901, 2, hidden=1, path=1),
     Digital(1, 1, 300010, 901, STANDARD_MODES[1])),
    ('analogue', lambda n: analogue(n, 2, 4, 1), Analogue(0, 0, 63000, 4, 1)),
    ('application', lambda n: application(n, 0xABCD, path=1), Application(0, 1, 0xABCD)),
    ('no carrier', lambda n: digital(n, 0, 902, 1), 19),
    ('too low', lambda n: analogue(n, 31), 20),
    ('no mode', lambda n: digital(n, 1, 903, 0), 21),
]


def overlapping_channels(dice):
    """Every pair of manners for one number: in a section, and over each two of four sections."""
    pairs = list(enumerate(itertools.product(MANNERS, MANNERS), 200))
    firsts = [first[1](number) for number, (first, _) in pairs]
    seconds = [second[1](number) for number, (_, second) in pairs]
    answers = {number: first[2] for number, (first, _) in pairs}
    cds = standard()[CDS][:3] + [Body(31, [carrier_at(50000)])]
    lone = [digital(2, 1, 3, 1)]
    for said, vcm in (
            ('in one section', [Body(0, firsts + seconds)]),
            ('in one section, turned round behind', [Body(0, firsts + seconds[::-1])]),
            ('in one section, turned round', [Body(0, firsts[::-1] + seconds[::-1])]),
            ('over two sections, second first in its section', [Body(0, firsts), Body(0, seconds[::-1])]),
            ('over two sections, behind others', [Body(0, lone * 30 + firsts), Body(0, seconds + lone * 30)])):
        yield trial(dice, 'overlapping channels', said,
                    build(dice, plant(cds=cds, vcm=vcm, dcm=ALL_DEFINED), other=standard()), asks(answers))
    for one, other in itertools.combinations(range(SECTIONS), 2):
        vcm = [Body(0, {one: firsts, other: seconds}.get(s, lone)) for s in range(SECTIONS)]
        yield trial(dice, 'overlapping channels', 'over sections %d and %d' % (one, other),
                    build(dice, plant(cds=cds, vcm=vcm, dcm=ALL_DEFINED)), asks(answers))
    vcm = [with_lists(dice, VCM, Body(0, part))
           for part in (firsts[:30], seconds[:30], firsts[30:], seconds[30:])]
    yield trial(dice, 'overlapping channels', 'with descriptors',
                build(dice, plant(cds=cds, vcm=vcm, dcm=ALL_DEFINED)), asks(answers))


# ----------------------------------------------------------------- DCM ranges

# (what, first channel, range bytes, channels defined, channels not defined)
RANGES = [
    ('C7', 2, '83 05 81', (2, 3, 4, 10), (0, 1, 5, 6, 7, 8, 9, 11, 12, 4095)),
    ('C8', 4095, '81', (4095,), (0, 1, 4094, 4093, 2047)),
    ('4095 not defined', 4095, '01', (), (0, 4094, 4095)),
    ('up to 4095', 4090, '83 01 82', (4090, 4091, 4092, 4094, 4095), (4089, 4093, 0)),
    ('0 alone', 0, '81', (0,), (1, 2, 4095)),
    ('0 not defined', 0, '01 81', (1,), (0, 2)),
    ('127 channels', 1000, 'FF', (1000, 1001, 1126), (999, 1127, 1128)),
    ('127 not defined', 1000, '7F FF', (1127, 1128, 1253), (999, 1000, 1126, 1254)),
    ('no range', 5, '', (), (0, 4, 5, 6, 4095)),
    ('127 ranges', 3000, '81 01' * 63 + '81', (3000, 3002, 3124, 3126), (2999, 3001, 3125, 3127)),
    ('127 ranges of 8', 3000, '88 08' * 63 + '88', (3000, 3007, 3016, 4008, 4015),
     (2999, 3008, 3015, 4007, 4016, 4095)),
    ('up to 4095 from 0', 0, '7F' * 31 + 'FF 1F 81', (3937, 3938, 4063, 4095), (0, 127, 3936, 4064, 4094)),
]
NONE_DEFINED = [Body(0, spans('7F' * 32))]      # 0 to 4063


def ranges(dice):
    """First and last channel of a range and those beside it, alone, before and behind sections that differ."""
    good = Digital(0, 0, 63000, 3, C12)
    for said, first, text, defined, not_defined in RANGES:
        this = Body(first, spans(text))
        behind = first + sum(record.data[0] & 0x7F for record in this.records)
        alone = dict([(n, good) for n in defined] + [(n, 17) for n in not_defined])
        filled = {n: good if n <= 4063 and not first <= n < behind else alone[n] for n in alone}
        hidden = {n: 17 if n <= 4063 else alone[n] for n in alone}
        base = plant(cds=[Body(1, [carriers(2, by125(48), by125(456))])], mms=ONE_MODE,
                     vcm=[Body(0, [digital(n, 2, 3, 1) for n in alone])])
        yield from both_ways(dice, 'ranges', said, dict(base, DCM=[this]), alone)
        for what, dcm, answers in (('then all defined', [this] + ALL_DEFINED, filled),
                                   ('then none defined', [this] + NONE_DEFINED, alone),
                                   ('behind none defined', NONE_DEFINED + [this], hidden)):
            yield trial(dice, 'ranges', '%s, %s' % (said, what), build(dice, dict(base, DCM=dcm)),
                        asks(answers))


# ----------------------------------------------------------- what records say

def channel_flags(dice):
    """Every value of application, path, transport, type, scrambled and standard."""
    records, answers = [], {}
    for path, hidden, scrambled, standard_number in itertools.product((0, 1), (0, 1), (0, 1), range(5)):
        number = 100 + len(records)
        records.append(analogue(number, 2, standard_number, scrambled, hidden, path))
        answers[number] = Analogue(hidden, path, 63000, standard_number, scrambled)
        records.append(analogue(number + 1, 2, standard_number, scrambled, hidden, path, 1, 0x77))
        answers[number + 1] = Application(hidden, path, 0x77)
    for path, hidden in itertools.product((0, 1), (0, 1)):
        number = 100 + len(records)
        records.append(digital(number, 1, 5, 1, hidden, path))
        answers[number] = Digital(hidden, path, 57000, 5, STANDARD_MODES[0])
        records.append(digital(number + 1, 1, 5, 1, hidden, path, 1, 0x78))
        answers[number + 1] = Application(hidden, path, 0x78)
    halves = [Body(0, records[:44]), Body(0, records[44:])]
    yield trial(dice, 'channel flags', 'all in one section',
                build(dice, plant(vcm=[Body(0, records)], dcm=ALL_DEFINED)), asks(answers))
    yield from both_ways(dice, 'channel flags', 'in two sections', plant(vcm=halves, dcm=ALL_DEFINED), answers)


def bits(width):
    return [0, (1 << width) - 1] + [1 << bit for bit in range(width)]


def mode_values(dice):
    """Every assigned system, inner coding and format, both splits, every bit of the symbol rate."""
    modes = [C12._replace(system=value) for value in SYSTEMS]
    modes += [C12._replace(inner=value) for value in INNER_CODINGS]
    modes += [C12._replace(format=value, split=value & 1) for value in FORMATS]
    modes += [C12._replace(symbols=value) for value in bits(28)]
    channels = [digital(100 + at, 1, at, 1 + at) for at in range(len(modes))]
    answers = {100 + at: Digital(0, 0, 57000, at, values) for at, values in enumerate(modes)}
    answers.update({100 + len(modes): 18})
    for said, mms in (('one section', [Body(1, list(map(mode, modes)))]),
                      ('two sections', [Body(31, list(map(mode, modes[30:]))),
                                        Body(1, list(map(mode, modes[:30])))])):
        yield from both_ways(dice, 'mode values', said, plant(mms=mms, vcm=[Body(0, channels)],
                                                              dcm=ALL_DEFINED), answers)


def channel_values(dice):
    """Every bit of the programme, of an application's number and of a channel number."""
    records = [digital(100 + at, 1, value, 1) for at, value in enumerate(bits(16))]
    records += [application(200 + at, value) for at, value in enumerate(bits(16))]
    records += [analogue(value, 2) for value in bits(12)[1:]]
    answers = {100 + at: Digital(0, 0, 57000, value, STANDARD_MODES[0])
               for at, value in enumerate(bits(16))}
    answers.update({200 + at: Application(0, 0, value) for at, value in enumerate(bits(16))})
    answers.update({value: Analogue(0, 0, 63000, 0, 0) for value in bits(12)[1:]})
    dcm = ALL_DEFINED + [Body(4064, spans('A0'))]
    yield from both_ways(dice, 'channel values', 'every bit', plant(vcm=[Body(0, records)], dcm=dcm), answers)


def near_numbers(dice):
    """Channel records, carriers and modes one bit away stand before the right one."""
    number, index = 0x5A5, 0xA5
    near = [number ^ 1 << bit for bit in range(12)] + [number]
    answers = {n: Digital(0, 0, 57000, at, STANDARD_MODES[0]) for at, n in enumerate(near)}
    records = [digital(n, 1, at, 1) for at, n in enumerate(near)]
    dcm = ALL_DEFINED + [Body(4064, spans('A0'))]
    for said, vcm in (('channels', [Body(0, records)]), ('channels, turned round', [Body(0, records[::-1])]),
                      ('channels over sections', [Body(0, records[part::4]) for part in range(4)])):
        yield from both_ways(dice, 'near numbers', said, plant(vcm=vcm, dcm=dcm), answers)
    for n in near:
        defined = [Body(n, spans('81'))]
        answers = {other: Digital(0, 0, 57000, at, STANDARD_MODES[0]) if other == n else 17
                   for at, other in enumerate(near)}
        yield trial(dice, 'near numbers', 'only %d defined' % n,
                    build(dice, plant(vcm=[Body(0, records)], dcm=defined)), asks(answers))
    for r in [index ^ 1 << bit for bit in range(8)]:
        vcm = [Body(0, [digital(3, index, 3, 1), digital(4, 1, 4, index), digital(5, r, 5, r)])]
        near_modes = [ONE_MODE[0], Body(r, [mode(C12._replace(symbols=r))])]
        near_carriers = [Body(1, [carrier_at(57000)]), Body(r, [carrier_at(60000)])]
        yield trial(dice, 'near numbers', 'index %d for %d' % (r, index),
                    build(dice, plant(cds=near_carriers, mms=near_modes, vcm=vcm, dcm=ALL_DEFINED)),
                    asks({3: 19, 4: 21, 5: Digital(0, 0, 60000, 5, C12._replace(symbols=r))}))


def many_records(dice):
    """As many records as a section holds, each one asked for."""
    modes = [C12._replace(symbols=7 * at) for at in range(140)]
    for said, first in (('low indices', 1), ('high indices', 91)):
        cds = [Body(first, [carrier_at(54000 + 125 * at) for at in range(165)])]
        mms = [Body(first + 25, [mode(values) for values in modes])]
        vcm = [Body(0, [digital(1000 + r, r, r, r) for r in range(first + 83 * part, first + 83 * part + 83)
                        if r < first + 165]) for part in range(2)]
        answers = {}
        for r in range(first, first + 165):
            at = r - first - 25
            answers[1000 + r] = Digital(0, 0, 54000 + 125 * (r - first), r, modes[at]) if at >= 0 else 21
        yield trial(dice, 'many records', said, build(dice, plant(cds=cds, mms=mms, vcm=vcm, dcm=ALL_DEFINED)),
                    asks(answers))
    vcm = [Body(part & 1, [analogue(10 * n, 2, n % 5) for n in range(part * 90, part * 90 + 90)])
           for part in range(4)]
    most = [Body(0, [analogue(n, 2, n % 5) for n in range(500, 611)])]
    yield trial(dice, 'many records', '111 channels in a section', build(dice, plant(vcm=most, dcm=ALL_DEFINED)),
                asks({n: Analogue(0, 0, 63000, n % 5, 0) for n in range(500, 611)}))
    yield trial(dice, 'many records', '360 channels', build(dice, plant(vcm=vcm, dcm=ALL_DEFINED)),
                asks({10 * n: Analogue(0, 0, 63000, n % 5, 0) for n in range(0, 360)}))


def references(dice):
    """Carrier and mode references 0 to 255, all there, then none below 128, then none from 128 on."""
    def there(r):
        return Digital(0, 0, 54000 + 3000 * (r - 1), r, C12._replace(symbols=r * 1000))

    whole = plant(cds=[Body(1, [carriers(255, by125(24), by125(432))])],
                  mms=[Body(1 + 85 * part, [mode(there(1 + 85 * part + k).mode) for k in range(85)])
                       for part in range(3)],
                  vcm=[Body(0, [digital(r, r, r, r) for r in range(64 * part, 64 * part + 64)])
                       for part in range(4)], dcm=ALL_DEFINED)
    answers = {r: there(r) for r in range(1, 256)}
    yield trial(dice, 'references', 'all there', build(dice, whole), asks({0: 19, **answers}))
    high = [Body(128, [carriers(128, by125(24), by10(5400))])]
    low = [Body(1, [carriers(127, by125(24), by10(5400))])]
    some = (0, 1, 2, 126, 127, 128, 129, 254, 255)
    for said, cds, first, last in (('carriers from 128 on', high, 128, 255),
                                   ('carriers up to 127', low, 1, 127)):
        khz = {r: 54000 + 3000 * (r - first) for r in range(first, last + 1)}
        yield trial(dice, 'references', said, build(dice, dict(whole, CDS=cds)),
                    asks({r: there(r)._replace(khz=khz[r]) if r in khz else 19 for r in some}))
    for said, mms, found in (('modes from 171 on', whole[MMS][2:], range(171, 256)),
                             ('modes up to 85', whole[MMS][:1], range(1, 86)),
                             ('no modes', [EMPTY[MMS]], ())):
        yield trial(dice, 'references', said, build(dice, dict(whole, MMS=mms)),
                    asks({r: 19 if r == 0 else there(r) if r in found else 21
                          for r in some + (85, 86, 170, 171)}))


# ------------------------------------------------------------- order of refusals

def refusal_order(dice):
    """Each of 17 to 21 with what comes behind it wrong too; carrier 9 is too low, 10 too high."""
    cds = [Body(1, [carriers(8, by125(48), by125(456)), carrier_at(53990), carrier_at(1002125)])]
    good = Digital(0, 0, 57000, 3, C12)
    records = [
        (40, digital(40, 1, 3, 1), good), (41, digital(41, 0, 3, 1), 19), (42, digital(42, 0, 3, 0), 19),
        (43, digital(43, 0, 3, 9), 19), (44, digital(44, 11, 3, 1), 19), (45, digital(45, 11, 3, 0), 19),
        (46, digital(46, 255, 3, 255), 19), (47, digital(47, 9, 3, 1), 20), (48, digital(48, 9, 3, 0), 20),
        (49, digital(49, 9, 3, 9), 20), (50, digital(50, 10, 3, 1), 20), (51, digital(51, 10, 3, 0), 20),
        (52, digital(52, 10, 3, 2), 20), (53, digital(53, 1, 3, 0), 21), (54, digital(54, 8, 3, 2), 21),
        (55, digital(55, 8, 3, 255), 21), (56, analogue(56, 0), 19), (57, analogue(57, 11), 19),
        (58, analogue(58, 9), 20), (59, analogue(59, 10), 20),
        (60, analogue(60, 8, 3), Analogue(0, 0, 99000, 3, 0)),
        (61, application(61, 5), Application(0, 0, 5)), (62, application(62, 6, carrier=11), Application(0, 0, 6)),
        (63, application(63, 7, carrier=9, mode_index=0), Application(0, 0, 7)),
        (64, application(64, 8, carrier=1, mode_index=9), Application(0, 0, 8)),
        (65, application(65, 0, carrier=1, program=3, mode_index=1, hidden=1, path=1), Application(1, 1, 0)),
        (66, analogue(66, 0, application=1, source=9), Application(0, 0, 9)),
        (67, analogue(67, 10, application=1, source=10), Application(0, 0, 10))]
    vcm = [Body(0, [record for _, record, _ in records])]
    numbers = [number for number, _, _ in records] + [39, 68]
    defined = {number: answer for number, _, answer in records}
    defined.update({39: 18, 68: 18})
    for said, dcm, answers in (
            ('defined', ALL_DEFINED, defined), ('no range', [EMPTY[DCM]], dict.fromkeys(numbers, 17)),
            ('not defined', NONE_DEFINED, dict.fromkeys(numbers, 17)),
            ('defined elsewhere', [Body(0, spans('A7')), Body(69, spans('FF'))], dict.fromkeys(numbers, 17))):
        yield from both_ways(dice, 'order of refusals', said, plant(cds=cds, mms=ONE_MODE, vcm=vcm, dcm=dcm),
                             answers)
    missing = {n: 18 if n in (39, 68) else a if isinstance(a, Application) else 19 for n, a in defined.items()}
    yield from both_ways(dice, 'order of refusals', 'no carriers',
                         plant(cds=[EMPTY[CDS]], mms=ONE_MODE, vcm=vcm, dcm=ALL_DEFINED), missing)
    missing = {n: 21 if isinstance(a, Digital) else a for n, a in defined.items()}
    yield from both_ways(dice, 'order of refusals', 'no modes',
                         plant(cds=cds, mms=[EMPTY[MMS]], vcm=vcm, dcm=ALL_DEFINED), missing)
    yield from both_ways(dice, 'order of refusals', 'no channels',
                         plant(cds=cds, mms=ONE_MODE, vcm=[EMPTY[VCM]], dcm=ALL_DEFINED),
                         dict.fromkeys(numbers, 18))


def channel_numbers(dice):
    """The borders of the channel numbers: not defined, defined without a record, and there."""
    borders = (0, 1, 2047, 2048, 4094, 4095)
    every = [Body(0, spans('FF' * 32)), Body(4064, spans('A0'))]
    here = [Body(0, [analogue(n, 2) for n in borders])]
    for said, vcm, dcm, answer in (('there', here, every, Analogue(0, 0, 63000, 0, 0)),
                                   ('no record', [EMPTY[VCM]], every, 18),
                                   ('not defined', here, [EMPTY[DCM]], 17)):
        answers = {n: answer for n in borders}
        answers.update({n: 14 for n in (4096, 4097, 6143, 6144, 8190, 8191, 8192, 32768, 61440, 65535)})
        yield from both_ways(dice, 'channel numbers', said, plant(vcm=vcm, dcm=dcm), answers)


# ------------------------------------------------------- sections, halves, versions

def section_counts(dice):
    """One to four live sections of each table, in all combinations."""
    for counts in itertools.product(range(1, SECTIONS + 1), repeat=4):
        numbers = sorted({10 + 4 * (count - 1) + kind for count in counts for kind in (0, 1, 2, 3)})
        numbers = [n for n in numbers + [FIRST_CHANNEL + 4 * max(counts)] if n <= STANDARD[-1]]
        other = standard() if dice.chance(4) else None
        yield trial(dice, 'section counts', '%d %d %d %d' % counts, build(dice, standard(counts), other=other),
                    standard_asks(numbers, counts))


def halves(dice):
    """All halves of the four tables; the other half, and the places beyond the last, hold other sections."""
    for which in itertools.product((0, 1), repeat=4):
        for counts in ((4, 4, 4, 4), (1, 1, 1, 1), (2, 2, 2, 2), (3, 3, 3, 3)):
            whole = standard(counts)
            built = build(dice, whole, live_tables(dice, whole, which), other=shifted_plant())
            yield trial(dice, 'halves', 'halves %d %d %d %d' % which + ', %d sections' % counts[0], built,
                        standard_asks(STANDARD, counts))


def versions(dice):
    """Every version live, the next one being gathered, in each table in turn."""
    whole = standard()
    for version in range(32):
        tables = {name: live_table(dice, MOST_LAST, version=version) for name in ORDER}
        yield trial(dice, 'versions', 'all %d' % version, build(dice, whole, tables, other=shifted_plant()),
                    standard_asks((10, 15, 18, 13, 23)))
    for map_number in (0, 1, 0xFF, 0x100, 0x3412, 0x8000, 0xFFFF):
        yield trial(dice, 'versions', 'map 0x%04X' % map_number,
                    build(dice, whole, map_number=map_number, other=shifted_plant()), standard_asks())


def empty_sections(dice):
    """Sections without records at every position of a table, the records in the others."""
    for name in NEEDED:
        for present in itertools.product((False, True), repeat=SECTIONS):
            bodies = [standard_body(name, s) if here else EMPTY[name] for s, here in enumerate(present)]
            answers = {}
            for number in STANDARD:
                s = (number - FIRST_CHANNEL) // 4
                counts = [SECTIONS] * 4
                if 0 <= s < SECTIONS and not present[s]:
                    counts[ORDER.index(name)] = s
                answers[number] = standard_answer(number, counts)
            yield trial(dice, 'empty sections', '%s %s' % (name, ''.join(str(int(here)) for here in present)),
                        build(dice, plant(**{name.lower(): bodies})), asks(answers))


def full_sections(dice):
    """Sections of 1,024 bytes: the next place begins right behind them."""
    for which in (0, 1):
        whole = standard()
        built = build(dice, whole, live_tables(dice, whole, (which,) * 4))
        pieces = [(place_start(name, which, number), padded(section, PLACE_BYTES))
                  for (name, number), section in built.sections.items()]
        for length in (STORE_BYTES, STORE_BYTES + 1, MOST_STORE):
            yield trial(dice, 'full sections', 'half %d, store of %d' % (which, length), built, standard_asks(),
                        length, pieces)


LOOKUPS = (frequencies, units, c6, overlapping_carriers, overlapping_modes, overlapping_ranges,
           overlapping_channels, ranges, channel_flags, mode_values, channel_values, near_numbers, many_records,
           references, refusal_order, channel_numbers, section_counts, halves, versions, empty_sections,
           full_sections)
