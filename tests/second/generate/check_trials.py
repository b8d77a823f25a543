"""Mofrindi: directed trials of tuning: refusals 1, 2, 14, 15 and 16, and what must not matter.

The answers are claimed, save where damage behind a right CRC may leave a section that reads right.
"""

import itertools

from generate.drafts import break_anything, break_revision, hurt_value, hurt_zero, make, runs_in
from generate.pieces import reseal, revision, seal
from generate.plants import (EMPTY, FIRST_CHANNEL, FIVE, MAP, SECTIONS, STANDARD, Asked, all_refused, asks, build,
                             listed, live_tables, padded, section_of_body, shifted_plant, standard, standard_answer,
                             standard_asks, standard_body, standard_labels, trial)
from generate.texts import ENGLISH, another_language
from generate.trials import BOTH, FIELDS, INSIDE, MOST_STORE, OUTSIDE, changed, next_name, set_owner, with_table
from program.receiver import NO_GATHERED, NO_LIVE, ORDER, PLACE_BYTES, STORE_BYTES, Live, Table, fresh, place_start
from program.section import CDS, DCM, NTT, VCM, Refusal
from program.tuning import NEEDED

TOO_HIGH = (4096, 4096 + FIRST_CHANNEL, 8191, 32768 + FIRST_CHANNEL, 65535)

# --------------------------------------------------------------------- refusal 15

def not_live(dice):
    """Each choice of tables that aren't live, with and without a version gathered; 14 goes before 15.

    Names are live in one half of the trials, which doesn't matter.
    """
    for lives in itertools.product((False, True), repeat=len(NEEDED)):
        if all(lives):
            continue
        for kind in range(4):
            whole = standard((SECTIONS,) * (4 + kind % 2))
            tables = live_tables(dice, whole)
            built = build(dice, whole, tables, other=standard() if kind == 3 else None)
            state = built.state
            for name, is_live in zip(NEEDED, lives):
                if not is_live:
                    gathering = tables[name].gathered if kind else NO_GATHERED
                    state = with_table(state, name, tables[name]._replace(live=NO_LIVE, gathered=gathering))
            said = ' '.join(name for name, is_live in zip(NEEDED, lives) if not is_live)
            # A broken place of a table that is live: 15 goes before 16.
            more = [(place_start(CDS, tables[CDS].half, 0), bytes(8))] if kind == 2 else []
            refused = all_refused(15, (10, 11, 12, 13, 0, 4095) + TOO_HIGH)
            yield trial(dice, 'not live', said, built._replace(state=state), refused, more=more,
                        labels=refused[kind::4])
    yield trial(dice, 'not live', 'fresh', build(dice, standard())._replace(state=fresh(MAP, ENGLISH)),
                all_refused(15, (0, 10, 4095, 4096, 65535)))


# --------------------------------------------------------------------- refusal 16

def flipped(section, bit):
    data = bytearray(section)
    data[bit // 8] ^= 0x80 >> bit % 8
    return bytes(data)


def damages(dice, built, name, number):
    """(what, bytes for the front of the place): none of them reads right as what is live there."""
    section, language = built.sections[name, number], built.state.language
    table = built.state.tables[ORDER.index(name)]
    version, last, map_number = table.live.version, table.live.last, built.state.map_number
    body = standard_body(name, number)

    def with_revision(table_name=name, map_number=map_number, version=version, number=number, last=last,
                      language=language):
        content = body if table_name == name else standard_body(table_name, number)
        return section_of_body(dice, table_name, map_number, content, version, number, last, language)

    for _ in range(3):
        yield 'one bit', flipped(section, dice.below(8 * len(section)))
    yield 'first bit', flipped(section, 0)
    yield 'last bit', flipped(section, 8 * len(section) - 1)
    for other in ORDER:
        if other != name:
            yield 'a section of ' + other, with_revision(other)
    if name in (VCM, DCM):
        for bit in (0, 7, 8, 15, dice.below(16)):
            yield 'another map', with_revision(map_number=map_number ^ 1 << bit)
        yield 'the map turned round', with_revision(map_number=0x3412)
    if name == NTT:
        for _ in range(4):
            yield 'another language', with_revision(language=another_language(dice, language))
    for bit in range(5):
        yield 'another version', with_revision(version=version ^ 1 << bit)
    if table.gathered.present:
        yield 'the version gathered', with_revision(version=table.gathered.version)
    for other in range(last + 1):
        if other != number:
            yield 'number %d' % other, with_revision(number=other)
    for other in (last - 1, last + 1, 3, 4, last + 4, last + 128, 255):
        if other != last and other >= number:
            yield 'last %d' % other, with_revision(last=other)
    yield 'another number and last', with_revision(number=number + 1, last=last + 1)
    yield 'zero bytes', bytes(PLACE_BYTES)
    yield 'all ones', b'\xFF' * PLACE_BYTES
    yield 'four zero bytes', bytes(4)
    yield 'three zero bytes', bytes(3)
    yield 'length one less', section[:2] + bytes([section[2] - 1])
    yield 'length one more', section[:2] + bytes([section[2] + 1])
    yield 'length 0', bytes([section[0], 0x30, 0])
    yield 'length 5', bytes([section[0], 0x30, 5])
    yield 'length 4095', bytes([section[0], 0x3F, 0xFF])
    yield 'length 1,022', bytes([section[0], 0x33, 0xFE])
    yield 'cut by a byte', section[:2] + bytes([section[2] - 1]) + section[3:-1] + b'\0'
    yield 'one byte further', b'\0' + section
    if section[-4:] != section[:-5:-1]:
        yield 'CRC turned round', section[:-4] + section[:-5:-1]
    yield 'CRC complement', section[:-4] + bytes(255 - byte for byte in section[-4:])
    yield 'no revision', reseal(section.replace(b'\x93\x03', b'\x92\x03'))
    yield 'a second revision', seal(section[0], section[3:-4] + revision(version, number, last))
    yield 'protocol version 1', reseal(section[:3] + b'\x01' + section[4:])
    yield 'a zero bit of byte 1', reseal(section[:1] + bytes([section[1] | 0x40]) + section[2:])
    yield 'a zero bit of byte 3', reseal(section[:3] + b'\x20' + section[4:])
    yield 'another table', reseal(bytes([dice.one([each for each in range(0xC0, 0xC8) if each != section[0]])])
                                  + section[1:])


def over_the_place(section):
    """The section with a right CRC made longer than 1,024 bytes: it runs into the next place."""
    for total in (1025, 1026, 1280, 2048, 4098):
        yield 'a section of %d bytes' % total, padded(section, total)


def damaged(dice):
    """Every live place of every table with either half live, damaged; other tables stay as they are."""
    for name, which, count in itertools.product(NEEDED, (0, 1), range(1, SECTIONS + 1)):
        counts = [count if each == name else SECTIONS for each in NEEDED]
        whole = standard(counts)
        which_halves = [which if each == name else None for each in NEEDED]
        built = build(dice, whole, live_tables(dice, whole, which_halves), other=standard() if which else None)
        for number in range(count):
            start = place_start(name, which, number)
            cases = list(damages(dice, built, name, number))
            if number == count - 1:
                cases += over_the_place(built.sections[name, number])
            for what, data in cases:
                numbers = [dice.one(STANDARD), dice.one((10, 11, 12) + TOO_HIGH[:1])]
                yield trial(dice, 'damaged', '%s, %s %d of %d, half %d' % (what, name, number, count, which),
                            built, all_refused(16, dict.fromkeys(numbers)), MOST_STORE, [(start, data)])


def every_bit(dice):
    """Every bit of a live section turned over: as it is always 16, with the CRC put right perhaps not."""
    for name in NEEDED:
        whole = listed(dice, standard())
        built = build(dice, whole)
        number = dice.below(SECTIONS)
        start = place_start(name, built.state.tables[ORDER.index(name)].half, number)
        section = built.sections[name, number]
        for bit in range(8 * len(section)):
            channel = dice.one(STANDARD)
            yield trial(dice, 'every bit', '%s %d, bit %d' % (name, number, bit), built,
                        all_refused(16, [channel]), more=[(start, flipped(section, bit))])
            if bit < 8 * (len(section) - 4):
                numbers = [FIRST_CHANNEL + 4 * number + kind for kind in (dice.below(2), dice.between(2, 3))]
                yield trial(dice, 'every bit', '%s %d, bit %d, CRC put right' % (name, number, bit), built,
                            [Asked(each, None) for each in numbers],
                            more=[(start, reseal(flipped(section, bit)))])


HURTS = {'zero bit': hurt_zero, 'value': hurt_value, 'cut': runs_in}


def draft_for(dice, name, number, state):
    """A section that reads right as what is live there."""
    draft, live = make(dice, name), state.tables[ORDER.index(name)].live
    draft.data('revision')[2:5] = bytes([dice.below(8) << 5 | live.version, number, live.last])
    set_owner(draft, state.map_number, state.language)
    return draft


def hurt_section(dice, name, number, state, how):
    """A section for a live place, its CRC right, hurt in one of the ways of HURTS, in its revision, or anyhow."""
    draft = draft_for(dice, name, number, state)
    if how in HURTS:
        kinds = ('record', 'range') if how == 'value' else ('record', 'head', 'header')
        if how == 'zero bit' and name == DCM:
            kinds = ('head', 'header')
        HURTS[how](dice, draft, dice.one(draft.places(*kinds)))
    elif how == 'revision':
        break_revision(dice, draft)
    else:
        break_anything(dice, draft)
    return seal(draft.number, draft.rest() or b'\0', draft.top)


def wrong_behind_crc(dice):
    """Sections of the right table, map, version, number and last that read wrong behind a right CRC."""
    for name, how, _ in itertools.product(NEEDED, list(HURTS) + ['revision', 'anything'], range(12)):
        built = build(dice, standard())
        number = dice.below(SECTIONS)
        section = hurt_section(dice, name, number, built.state, how)
        claim = None if how == 'anything' else Refusal(16)
        asked = [Asked(channel, claim) for channel in (10 + 4 * number, 11 + 4 * number, 12, 13)]
        yield trial(dice, 'wrong behind the CRC', '%s, %s %d' % (how, name, number), built, asked,
                    more=[(place_start(name, built.state.tables[ORDER.index(name)].half, number), section)])


# --------------------------------------------------------------- what must not matter

def other_contents(dice):
    """Another section that reads right as what is live: its records count, whatever stood there before."""
    for name, number in itertools.product(NEEDED, range(SECTIONS)):
        built = build(dice, standard(), other=standard())
        table = built.state.tables[ORDER.index(name)]
        section = section_of_body(dice, name, MAP, EMPTY[name], table.live.version, number, table.live.last)
        answers = {}
        for channel in STANDARD:
            counts = [SECTIONS] * 4
            if (channel - FIRST_CHANNEL) // 4 == number:
                counts[ORDER.index(name)] = number
            answers[channel] = standard_answer(channel, counts)
        yield trial(dice, 'other contents', 'shorter, without records, %s %d' % (name, number), built,
                    asks(answers), more=[(place_start(name, table.half, number), section)])


def free_places(built, name):
    """Places of a table that aren't live, as starts."""
    table = built.state.tables[ORDER.index(name)]
    return [place_start(name, half, number) for half in (0, 1) for number in range(SECTIONS)
            if half != table.half or number > table.live.last]


def no_matter(dice):
    """Bytes behind a section in its place, places that aren't live, bytes behind the last place."""
    for counts in ((4, 4, 4, 4), (1, 1, 1, 1), (2, 3, 1, 4), (3, 1, 4, 2)):
        for turn in range(4):
            whole = standard(counts)
            built = build(dice, whole, live_tables(dice, whole, [turn & 1] * 4))
            behind = [(place_start(name, turn & 1, number) + len(section), PLACE_BYTES - len(section))
                      for (name, number), section in built.sections.items()]
            free = [(start, PLACE_BYTES) for name in ORDER for start in free_places(built, name)]
            end = [(STORE_BYTES, MOST_STORE - STORE_BYTES - 1)]
            for said, spots in (('behind the sections', behind), ('free places', free),
                                ('behind the last place', end), ('all of these', behind + free + end)):
                fill = (0, 0xFF, 0x93, dice.below(256))[turn]
                more = [(start, bytes([fill]) * size) for start, size in spots]
                yield trial(dice, 'no matter', '%s, 0x%02X' % (said, fill), built, standard_asks(STANDARD, counts),
                            MOST_STORE, more)
            repeated = [(start, built.sections[name, number]) for (name, number), (start, _)
                        in zip(built.sections, behind)]
            yield trial(dice, 'no matter', 'the section again behind itself', built,
                        standard_asks(STANDARD, counts), more=repeated)


# ------------------------------------------------------------- refusals 1 and 2

def store_lengths(dice):
    """1 goes before all else; what lies inside a short store is as it should be."""
    for length in (0, 1, 2, 1024, 8192, 31744, 32767, 32768, 32769, 40000, 40958, 40959):
        for which in (0, 1):
            whole = standard((1,) * 5 if which == 0 else FIVE)
            built = build(dice, whole, live_tables(dice, whole, (which,) * 5))
            numbers = (0, 10, 11, 12, 13, 4095) + TOO_HIGH
            yield trial(dice, 'store length', '%d bytes' % length, built, all_refused(1, numbers), length)
            bad = with_table(built.state, CDS, BOTH._replace(half=2))
            yield trial(dice, 'store length', '%d bytes, 1 before 2' % length, built._replace(state=bad),
                        all_refused(1, numbers), length)
            nothing = built._replace(state=fresh(MAP, ENGLISH))
            yield trial(dice, 'store length', '%d bytes, 1 before 15' % length, nothing, all_refused(1, numbers),
                        length)
    for length in (40960, 40961, 41984, 50000, 65535, 65536):
        for which in (0, 1):
            whole = standard(FIVE)
            built = build(dice, whole, live_tables(dice, whole, (which,) * 5), other=shifted_plant())
            too_high = all_refused(14, TOO_HIGH)
            yield trial(dice, 'store length', '%d bytes' % length, built, standard_asks() + too_high, length,
                        labels=standard_labels() + too_high)


def fitted(dice, name, table):
    """The standard plant with this table; as many sections as it says."""
    counts = [table.live.last + 1 if each == name else SECTIONS for each in ORDER]
    whole = standard(counts)
    return build(dice, whole, dict(live_tables(dice, whole), **{name: table})), counts


def states_inside(dice):
    """Just inside refusal 2: the live table answers, or 15; where it is the names, the fallback is the label."""
    for name in ORDER:
        for said, table in INSIDE:
            built, counts = fitted(dice, name, table)
            numbers = (10, 14, 12, 13)
            asked, labels = standard_asks(numbers, counts), standard_labels(numbers, counts)
            if not table.live.present and name == NTT:
                labels = standard_labels(numbers, counts[:4] + [0])
            elif not table.live.present:
                asked = labels = all_refused(15, numbers)
            yield trial(dice, 'state well formed', '%s, %s' % (said, name), built,
                        asked + all_refused(14, [4096 + 10]), labels=[dice.one(labels)])


def states_outside(dice):
    """Not well formed, one table in turn, all else in its place; 2 goes before 14, 15 and 16."""
    for name in ORDER:
        built, _ = fitted(dice, name, ONLY)
        for said, table in OUTSIDE:
            state = with_table(built.state, name, table)
            kind = dice.below(4)
            if kind == 0:
                other = next_name(name)
                state = with_table(state, other, state.tables[ORDER.index(other)]._replace(live=NO_LIVE))
            more = [(place_start(name, 0, 0), bytes(8))] if kind == 1 else []
            yield trial(dice, 'state not well formed', '%s, %s' % (said, name), built._replace(state=state),
                        all_refused(2, (10, dice.one((4096, 65535)))), more=more,
                        labels=all_refused(2, (dice.one((10, 4096)),)))


ONLY = Table(Live(1, 5, 1), NO_GATHERED, 0)     # what most of OUTSIDE have live
VALUES = tuple(range(10)) + (15, 16, 17, 30, 31, 32, 33, 63, 64, 127, 128, 129, 254, 255)


def state_fields(dice):
    """Many values of every byte of a state that is otherwise right, and every bit of the map number."""
    for name in ORDER:
        for start in (ONLY, BOTH, ONLY._replace(half=1)):
            built, _ = fitted(dice, name, start)
            for field, value in itertools.product(FIELDS, VALUES):
                table = changed(start, **{field: value})
                yield trial(dice, 'state fields', '%s %s %d' % (name, field, value),
                            built._replace(state=with_table(built.state, name, table)),
                            [Asked(dice.one((10, 11, 12, 13)), None)])
    built = build(dice, standard())
    for bit in range(16):
        state = built.state._replace(map_number=MAP ^ 1 << bit)
        yield trial(dice, 'state fields', 'map number, bit %d' % bit, built._replace(state=state),
                    all_refused(16, (10, 12, 4096)))


CHECKS = (not_live, damaged, every_bit, wrong_behind_crc, other_contents, no_matter, store_lengths,
          states_inside, states_outside, state_fields)
