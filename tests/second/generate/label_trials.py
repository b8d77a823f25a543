"""Mofrindi: directed trials of labels (request 2026-01): the search for a name, the fallback, and each refusal.

The answers are claimed as they follow by hand from the request, and so is tuning, which names don't change.
"""

import itertools

from generate.check_trials import HURTS, TOO_HIGH, damages, flipped, free_places, hurt_section, over_the_place
from generate.lookup_trials import ALL_DEFINED, any_combination
from generate.pieces import reseal
from generate.plants import (EMPTY, FIVE, MAP, SECTIONS, STANDARD, Asked, Body, all_refused, analogue, application,
                             asks, build, digital, listed, live_tables, name_of, plant, section_of_body, standard,
                             standard_answer, standard_asks, standard_labels, trial)
from generate.texts import MOST_NAME, WITH_LENGTH, another_language, block, plain, sixteen_bit, text_of
from generate.trials import BOTH, MOST_STORE, changed, gathered, with_table
from program.label import Fallback
from program.receiver import NO_LIVE, ORDER, PLACE_BYTES, STORE_BYTES, place_start
from program.section import NTT
from program.tuning import NEEDED

FEW = (10, 15, 18, 13)          # one channel of each kind of the standard plant, and one that isn't defined


def named_plant(names, **tables):
    """The standard plant with these tables and with these sections of names."""
    return dict(plant(**tables), NTT=names)


def label_trial(dice, family, said, whole, labels, **more):
    """A trial that asks labels alone."""
    return trial(dice, family, said, build(dice, whole, other=more.pop('other', None)), [], labels=asks(labels), **more)


# ----------------------------------------------------------------- the search for a name

def counts_and_halves(dice):
    """One to four live sections of names, in either half, other names in all other places."""
    for count, half in itertools.product(range(1, SECTIONS + 1), (0, 1)):
        counts = (SECTIONS,) * 4 + (count,)
        for other in (None, dict(standard(), NTT=[Body(0, other_names())] * SECTIONS)):
            whole = standard(counts)
            built = build(dice, whole, live_tables(dice, whole, (None,) * 4 + (half,)), other=other)
            yield trial(dice, 'names', '%d sections, half %d' % (count, half), built, standard_asks(FEW),
                        labels=standard_labels(STANDARD, counts) + all_refused(14, TOO_HIGH))


def other_names():
    """Of all numbers that the standard plant has, with either flag."""
    numbers = [0x1000 + number for number in STANDARD] + [0x8001 + s for s in range(SECTIONS)]
    return [name_of(flag, number, plain('not %X' % number)) for number in numbers for flag in (0, 1)]


SOURCE, APPLICATION = 0x1234, 0x4321
TWO = [Body(0, [digital(3, 1, 3, 1, source=SOURCE), application(9, APPLICATION)])]


def first_match(dice):
    """Both numbers in up to four sections, in one of two ways or not: the lowest section, and there the first."""
    def text(s, way):
        return plain('%d, %d' % (s, way))

    def cover(s, way):
        lure = [name_of(flag, number ^ 1 << s, plain('near')) for flag in (0, 1) for number in (SOURCE, APPLICATION)]
        if way == 0:
            return (EMPTY[NTT], Body(0, lure), Body(0, lure[:1]), Body(0, lure * 3))[s]
        both = [name_of(0, SOURCE, text(s, way)), name_of(1, APPLICATION, text(s, way))]
        again = [name_of(0, SOURCE, plain('again')), name_of(1, APPLICATION, plain('again'))]
        return Body(0, lure + both + again if way == 1 else both[::-1] + lure + again)

    def answer(first):
        found = Fallback() if first is None else text(*first)
        return {3: found, 9: found, 4: 18}

    for said, names, answers in any_combination(cover, answer):
        yield label_trial(dice, 'first name', said, named_plant(names, vcm=TWO, dcm=ALL_DEFINED), answers)


def flags(dice):
    """The same number as a source and as an application, in all orders, and with one of the two missing."""
    number = 0x0203
    vcm = [Body(0, [digital(3, 1, 3, 1, source=number), analogue(4, 2, source=number), application(5, number),
                    analogue(6, 2, application=1, source=number)])]
    names = {0: name_of(0, number, plain('source')), 1: name_of(1, number, plain('application'))}
    for flags_there in ((), (0,), (1,), (0, 1), (1, 0), (0, 1, 0), (1, 1, 0)):
        texts = {flag: plain('source' if flag == 0 else 'application') if flag in flags_there else Fallback()
                 for flag in (0, 1)}
        answers = {3: texts[0], 4: texts[0], 5: texts[1], 6: texts[1]}
        for grown in (False, True):
            whole = named_plant([Body(0, [names[flag] for flag in flags_there])], vcm=vcm, dcm=ALL_DEFINED)
            yield label_trial(dice, 'flags', '%s' % (flags_there,), listed(dice, whole) if grown else whole, answers)


def numbers(dice):
    """Every bit of the number, 0 and 65,535: near ones stand before the right one."""
    for number in (0, 0xFFFF, 0x5AA5):
        near = [number ^ 1 << bit for bit in range(16)]
        vcm = [Body(0, [digital(100 + at, 1, 3, 1, source=each) for at, each in enumerate(near)]
                    + [digital(90, 1, 3, 1, source=number), application(91, number)])]
        right = [name_of(0, number, plain('right')), name_of(1, number, plain('too'))]
        for said, names in (('behind near ones', [name_of(0, each, plain('%X' % each)) for each in near] + right),
                            ('before near ones', right + [name_of(0, each, plain('%X' % each)) for each in near])):
            answers = {100 + at: plain('%X' % each) for at, each in enumerate(near)}
            answers.update({90: plain('right'), 91: plain('too')})
            yield label_trial(dice, 'numbers', '0x%04X %s' % (number, said),
                              named_plant([Body(0, names)], vcm=vcm, dcm=ALL_DEFINED), answers)
        alone = {90: plain('right'), 91: plain('too')}
        alone.update({100 + at: Fallback() for at in range(16)})
        yield label_trial(dice, 'numbers', '0x%04X alone' % number,
                          named_plant([Body(0, right)], vcm=vcm, dcm=ALL_DEFINED), alone)


def first_record(dice):
    """Two records of one channel: the first gives flag and number, whatever the second has a name for."""
    records = {3: digital(3, 1, 3, 1, source=7), 4: application(3, 7), 5: digital(3, 1, 3, 1, source=8)}
    names = [Body(0, [name_of(0, 7, plain('source 7')), name_of(1, 7, plain('application 7'))])]
    found = {3: plain('source 7'), 4: plain('application 7'), 5: Fallback()}
    for one, other in itertools.permutations(records, 2):
        for vcm in ([Body(0, [records[one], records[other]])], [Body(0, [records[one]]), Body(0, [records[other]])],
                    [EMPTY[ORDER[2]], Body(0, [records[one]]), Body(0, []), Body(0, [records[other]])]):
            yield label_trial(dice, 'first record', '%d, %d, %d sections' % (one, other, len(vcm)),
                              named_plant(names, vcm=vcm, dcm=ALL_DEFINED), {3: found[one]})


def texts(dice):
    """Names of every size, and of every kind of text: the label is all of it, modes, lengths and effectors too."""
    vcm = [Body(0, [digital(3, 1, 3, 1, source=7), application(4, 8)])]
    kinds = [plain(''), plain('On\xE9'), sixteen_bit('\u041e\u0440\u0442'), b'\x40', b'\x83\x9F',
             b'\x83' + plain('x') + b'\x84', block(0xA0, b''), block(0xFF, b'\x3F\x07'),
             plain('a') + sixteen_bit('b') + block(4, b'\x10')]
    kinds += [block(0, bytes([mode])) for mode in (0x07, 0x3E, 0x93)] + [block(dice.one(WITH_LENGTH), b'abc')]
    for name in kinds + [text_of(dice, size) for size in range(1, MOST_NAME + 1)]:
        names = [name_of(0, 6, plain('six')), name_of(0, 7, name), name_of(1, 8, plain('eight'))]
        yield label_trial(dice, 'texts', '%d bytes, %s' % (len(name), name[:4].hex()),
                          named_plant([Body(0, names)], vcm=vcm, dcm=ALL_DEFINED), {3: name, 4: plain('eight')})


# --------------------------------------------------------------------- the fallback

FALLBACKS = (b'', b'\0', b'3', b'no name', bytes(range(256)), b'\x07\x00', b'\xFF' * 1025, bytes(65535))


def fallbacks(dice):
    """No name, or names that aren't live: every byte of what is lent, also if that is none."""
    answers = {10: Fallback(), 15: Fallback(), 18: Fallback(), 13: 17, 9: 17}
    vcm_alone = dict(standard(), DCM=ALL_DEFINED)
    for fallback in FALLBACKS:
        said = '%d bytes' % len(fallback)
        named = named_plant([EMPTY[NTT]])
        yield label_trial(dice, 'fallback', 'no names in the section, ' + said, named, answers, fallback=fallback)
        yield label_trial(dice, 'fallback', 'a name, ' + said, standard(FIVE),
                          {n: each.claim for n, each in zip(FEW, standard_labels(FEW))}, fallback=fallback)
        yield label_trial(dice, 'fallback', '18, ' + said, dict(vcm_alone, NTT=[EMPTY[NTT]]), {9: 18, 10: Fallback()},
                          fallback=fallback)
        for gathering in (False, True):
            yield only_gathered(dice, gathering, fallback, answers)


def only_gathered(dice, gathering, fallback, answers):
    """Good names stand in the places of both halves, but none are live."""
    whole = standard(FIVE)
    built = build(dice, whole, other=whole)
    table = built.state.tables[ORDER.index(NTT)]._replace(live=NO_LIVE)
    table = table._replace(gathered=gathered(4, 3, 0, 1, 2)) if gathering else changed(
        table, gathered_present=0, gathered_version=0, gathered_last=0, gathered_held=0)
    return trial(dice, 'fallback', 'names %s' % ('gathered' if gathering else 'not live'),
                 built._replace(state=with_table(built.state, NTT, table)), standard_asks(FEW), fallback=fallback,
                 labels=asks(answers))


# --------------------------------------------------------------------- refusals

def never_19_to_21(dice):
    """A channel that doesn't tune for its carrier or mode has a label."""
    for said, tables in (('no carriers', {'cds': [EMPTY[NEEDED[0]]]}), ('no modes', {'mms': [EMPTY[NEEDED[1]]]})):
        whole = dict(standard(FIVE), **{name.upper(): bodies for name, bodies in tables.items()})
        counts = (0, 4, 4, 4, 4) if 'cds' in tables else (4, 0, 4, 4, 4)
        yield trial(dice, 'never 19 to 21', said, build(dice, whole), standard_asks(STANDARD, counts),
                    labels=standard_labels(STANDARD))


def short_stores(dice):
    """1 goes before all else, also in a store that is long enough for the four tables."""
    for length in (0, 24576, 32767, 32768, 36864, 40959):
        built = build(dice, standard(FIVE))
        bad = with_table(built.state, NTT, BOTH._replace(half=2))
        for said, state in (('good state', built.state), ('bad state', bad)):
            refused = all_refused(1, (0, 10, 4095, 4096))
            yield trial(dice, 'label refused 1', '%d bytes, %s' % (length, said), built._replace(state=state), refused,
                        length, labels=refused)


def missing_tables(dice):
    """15 for the four tables, with good names live; 15 goes before damaged names, 14 before both."""
    for name, broken in itertools.product(NEEDED, (False, True)):
        built = build(dice, standard(FIVE))
        table = built.state.tables[ORDER.index(name)]
        start = place_start(NTT, built.state.tables[ORDER.index(NTT)].half, 0)
        yield trial(dice, 'label refused 15', '%s%s' % (name, ', broken names' if broken else ''),
                    built._replace(state=with_table(built.state, name, table._replace(live=NO_LIVE))),
                    all_refused(15, (10, 4096)), more=[(start, bytes(8))] if broken else [],
                    labels=all_refused(15, (10, 13, 0, 4095) + TOO_HIGH))


def broken_tables(dice):
    """16 for a place of the four tables, with good names live."""
    for name, number in itertools.product(NEEDED, range(SECTIONS)):
        built = build(dice, standard(FIVE))
        start = place_start(name, built.state.tables[ORDER.index(name)].half, number)
        hurt = flipped(built.sections[name, number], dice.below(8 * len(built.sections[name, number])))
        yield trial(dice, 'label refused 16', '%s %d' % (name, number), built, all_refused(16, (10,)),
                    more=[(start, hurt)], labels=all_refused(16, (10, 13, 4096)))


def broken_names(dice):
    """Every live place of names, damaged in every way: 16 for all labels, and tuning as if nothing were."""
    for which, count in itertools.product((0, 1), range(1, SECTIONS + 1)):
        whole = standard((SECTIONS,) * 4 + (count,))
        built = build(dice, whole, live_tables(dice, whole, (None,) * 4 + (which,)))
        for number in range(count):
            cases = list(damages(dice, built, NTT, number))
            if number == count - 1:
                cases += over_the_place(built.sections[NTT, number])
            for what, data in cases:
                channel = dice.one(STANDARD)
                yield trial(dice, 'broken names', '%s, %d of %d, half %d' % (what, number, count, which), built,
                            standard_asks((channel,)), MOST_STORE, [(place_start(NTT, which, number), data)],
                            labels=all_refused(16, (dice.one((channel, 10, 13, 4096)),)))


def many_bits(dice):
    """Bits of a section of names turned over: 16, or with the CRC put right perhaps another name."""
    built = build(dice, listed(dice, standard(FIVE)))
    number = dice.below(SECTIONS)
    start = place_start(NTT, built.state.tables[ORDER.index(NTT)].half, number)
    section = built.sections[NTT, number]
    for bit in range(dice.below(2), 8 * len(section), 2):
        channel = 10 + 4 * number + dice.below(3)
        said = '%d, bit %d' % (number, bit)
        if bit % 8 < 2:
            yield trial(dice, 'bits of names', said, built, standard_asks((channel,)),
                        more=[(start, flipped(section, bit))], labels=all_refused(16, (channel,)))
        if bit < 8 * (len(section) - 4):
            yield trial(dice, 'bits of names', said + ', CRC put right', built, standard_asks((channel,)),
                        more=[(start, reseal(flipped(section, bit)))], labels=[Asked(channel, None)])


def wrong_behind_crc(dice):
    """Names that read wrong behind a right CRC: 16, and tuning as if nothing were."""
    for how, _ in itertools.product(list(HURTS) + ['revision', 'anything'], range(20)):
        built = build(dice, standard(FIVE))
        number = dice.below(SECTIONS)
        start = place_start(NTT, built.state.tables[ORDER.index(NTT)].half, number)
        section = hurt_section(dice, NTT, number, built.state, how)
        labels = [Asked(n, None) for n in FEW] if how == 'anything' else all_refused(16, FEW)
        yield trial(dice, 'names wrong behind the CRC', '%s, %d' % (how, number), built, standard_asks(FEW),
                    more=[(start, section)], labels=labels)


# ------------------------------------------------------------- languages, what must not matter

def other_language(dice):
    """Live places that hold another language than the state's: 16, as a map of another number is; tuning goes on."""
    for turn in range(24):
        built = build(dice, standard(FIVE))
        state = built.state._replace(language=another_language(dice, built.state.language))
        yield trial(dice, 'language', 'of all sections', built._replace(state=state), standard_asks(FEW),
                    labels=all_refused(16, FEW))
        ours = another_language(dice, b'eng')
        yield trial(dice, 'language', ours.hex(), build(dice, standard(FIVE), language=ours), standard_asks(FEW),
                    labels=standard_labels())


def other_content(dice):
    """Another section of names that reads right as what is live: its names count."""
    for number in range(SECTIONS):
        built = build(dice, standard(FIVE), other=standard(FIVE))
        table = built.state.tables[ORDER.index(NTT)]
        section = section_of_body(dice, NTT, MAP, EMPTY[NTT], table.live.version, number, table.live.last)
        answers = {n: Fallback() if (n - 10) // 4 == number and standard_answer(n) != 17 else each.claim
                   for n, each in zip(STANDARD, standard_labels())}
        yield trial(dice, 'other names', 'section %d' % number, built, standard_asks(),
                    more=[(place_start(NTT, table.half, number), section)], labels=asks(answers))


def no_matter(dice):
    """Bytes behind the names in their place, places that aren't live, bytes behind the last place, gathered names."""
    for count, which in itertools.product((1, 4), (0, 1)):
        counts = (SECTIONS,) * 4 + (count,)
        whole = standard(counts)
        built = build(dice, whole, live_tables(dice, whole, (None,) * 4 + (which,)))
        behind = [(place_start(NTT, which, number) + len(section), PLACE_BYTES - len(section))
                  for (name, number), section in built.sections.items() if name == NTT]
        free = [(start, PLACE_BYTES) for start in free_places(built, NTT)]
        end = [(STORE_BYTES, MOST_STORE - STORE_BYTES - 1)]
        for fill, spots in itertools.product((0, 0xFF, 0x3F), (behind, free, end, behind + free + end)):
            yield trial(dice, 'no matter for names', '%d spots, 0x%02X' % (len(spots), fill), built, standard_asks(FEW),
                        MOST_STORE, [(start, bytes([fill]) * size) for start, size in spots],
                        labels=standard_labels(STANDARD, counts))


LABELS = (counts_and_halves, first_match, flags, numbers, first_record, texts, fallbacks, never_19_to_21, short_stores,
          missing_tables, broken_tables, broken_names, many_bits, wrong_behind_crc, other_language, other_content,
          no_matter)
