"""Mofrindi: a seeded generator of trials for comparing two tuners, and their labels.

A trial is a state, a store and the channel numbers asked of them, some to tune and some for their labels.
batch() gives the directed trials, each with a family and a name, then random ones; request() gives the bytes of
a trial for a program.
"""

import sys

sys.dont_write_bytecode = True

from generate.check_trials import CHECKS, draft_for, flipped
from generate.drafts import break_anything
from generate.label_trials import LABELS
from generate.lookup_trials import LOOKUPS
from generate.pieces import Dice, reseal, seal
from generate.plants import (SECTIONS, Asked, Body, all_refused, analogue, build, by10, by125, carriers, digital,
                             listed, mode, name_of, spans, trial)
from generate.texts import any_language, any_text
from generate.trials import FIELDS, any_state, changed, random_length, shuffled, state_bytes, store_of, with_table
from program.receiver import ORDER, STORE_BYTES, place_start
from program.section import CDS, DCM, FORMATS, INNER_CODINGS, MMS, NTT, SYSTEMS, VCM
from program.tuning import ModeRecord


# ------------------------------------------------------------- the wire of a trial

def request(trial):
    parts = [state_bytes(trial.state), trial.length.to_bytes(4, 'little'), bytes([trial.seed]),
             len(trial.pieces).to_bytes(2, 'little')]
    for place, data in trial.pieces:
        parts += [place.to_bytes(4, 'little'), len(data).to_bytes(2, 'little'), data]
    parts += [channel_list(trial.channels), len(trial.fallback).to_bytes(2, 'little'), trial.fallback,
              channel_list(trial.labelled)]
    return b''.join(parts)


def channel_list(channels):
    return len(channels).to_bytes(4, 'little') + b''.join(number.to_bytes(2, 'little') for number in channels)


def trial_store(trial):
    store = store_of(trial.length, trial.seed)
    for place, data in trial.pieces:
        store[place:place + len(data)] = data
    return store


# ------------------------------------------------------------------ full plants

def full_plant(dice):
    """158 carriers, some 400 channels over four sections, many ranges, and names for one of two channels.

    The indices overlap here and there.
    """
    cds = [Body(1, [carriers(40, by125(48), by125(456)), carriers(20, by125(48), by125(2376))]),
           Body(61, [carriers(49, by10(600), by125(3336))]),
           Body(105, [carriers(30, by125(48), by125(5448)), carriers(24, by125(96), by125(6648))])]
    mms = [Body(1, [mode(random_mode(dice)) for _ in range(12)]), Body(10, [mode(random_mode(dice))] * 8)]
    numbers = shuffled(dice, range(1, 600))[:404]
    vcm = [Body(0, [random_channel(dice, n, 160, 18, 200) for n in numbers[part::4]]) for part in range(4)]
    dcm = [Body(1 + 130 * part, [random_span(dice, 6) for _ in range(80)]) for part in range(4)]
    return {CDS: cds, MMS: mms, VCM: vcm, DCM: dcm, NTT: [Body(0, random_names(dice, 50, 200)) for _ in range(4)]}


def full_plants(dice):
    for turn in range(4):
        whole = full_plant(dice)
        built = build(dice, whole, other=full_plant(dice) if turn < 2 else None)
        numbers = range(0, 4096, 1) if turn == 0 else shuffled(dice, range(0, 700))[:400]
        yield trial(dice, 'full plant', 'plant %d' % turn, built,
                    [Asked(n, None) for n in numbers] + all_refused(14, range(4096, 4200, 13)),
                    labels=[Asked(n, None) for n in range(turn, 600, 3)])


# ------------------------------------------------------------------- random ones

def random_mode(dice):
    return ModeRecord(dice.one(SYSTEMS), dice.one(INNER_CODINGS), dice.below(2), dice.one(FORMATS),
                      dice.below(1 << 28))


def random_channel(dice, number, carrier_limit, mode_limit, source_limit=12):
    """Few sources, so that names meet them."""
    hidden, path, source = dice.below(2), dice.below(2), dice.below(source_limit)
    carrier = 0 if dice.chance(12) else dice.below(carrier_limit)
    is_application = 1 if dice.chance(6) else 0
    if dice.chance(3):
        return analogue(number, carrier, dice.below(5), dice.below(2), hidden, path, is_application, source)
    return digital(number, carrier, dice.below(0x10000), dice.below(mode_limit), hidden, path, is_application,
                   source)


def random_names(dice, count, source_limit):
    return [name_of(dice.below(2), dice.below(source_limit), any_text(dice, 12)) for _ in range(count)]


def random_span(dice, most):
    return spans('%02X' % ((0 if dice.chance(4) else 0x80) | dice.between(1, most)))[0]


def random_word(dice):
    """A frequency: mostly within reach, else about a limit or anything."""
    way = dice.below(8)
    if way == 0:
        return dice.below(0x10000)
    if way == 1:
        return dice.one((by10(5400), by125(432), by125(8016))) + dice.one((-1, 0, 0, 1))
    return by125(dice.between(432, 8000)) if dice.chance(2) else by10(dice.between(5400, 32767))


def random_carriers(dice):
    spacing = dice.one((by125(48), by10(600), by10(0), by10(dice.below(3000)), by125(dice.below(400)),
                        dice.below(0x10000) & 0xBFFF))
    return carriers(dice.between(1, 4), spacing, random_word(dice))


def some(dice, most):
    """How many records: now and then none."""
    return 0 if dice.chance(6) else dice.between(1, most)


def random_spans(dice, left):
    """Some ranges that take at most so many channels."""
    records = []
    for _ in range(some(dice, 8)):
        if left > 0:
            records.append(random_span(dice, min(left, 7)))
            left -= records[-1].data[0] & 0x7F
    return records


def random_body(dice, name, base):
    """Small spaces of indices and channels, so that sections overlap and miss each other."""
    if name == CDS:
        return Body(dice.between(1, 6), [random_carriers(dice) for _ in range(some(dice, 5))])
    if name == MMS:
        return Body(dice.between(1, 4), [mode(random_mode(dice)) for _ in range(some(dice, 5))])
    if name == VCM:
        return Body(dice.below(2), [random_channel(dice, base + dice.below(14), 13, 7)
                                    for _ in range(some(dice, 20))])
    if name == NTT:
        return Body(0, random_names(dice, some(dice, 8), 12))
    first = base + dice.below(5)
    return Body(first, random_spans(dice, 4096 - first))


def random_plant(dice, base):
    """Of all tables; now and then without names."""
    names = ORDER[:-1] if dice.chance(8) else ORDER
    whole = {name: [random_body(dice, name, base) for _ in range(dice.between(1, SECTIONS))] for name in names}
    return listed(dice, whole) if dice.chance(2) else whole


def random_numbers(dice, base, count):
    """Mostly in the small space of the plant."""
    numbers = shuffled(dice, range(base, min(base + 15, 4096)))[:count]
    return numbers + [dice.below(4096)] + ([dice.between(4096, 65535)] if dice.chance(4) else [])


def random_built(dice):
    base = dice.one((0, 0, 1, 95, 2040, 4076, 4080))
    whole = random_plant(dice, base)
    other = random_plant(dice, base) if dice.chance(4) else None
    return base, build(dice, whole, map_number=dice.below(0x10000), other=other, language=any_language(dice))


def random_labels(dice, base):
    return [Asked(n, None) for n in random_numbers(dice, base, 4)]


def random_whole(dice):
    base, built = random_built(dice)
    return trial(dice, 'random plant', 'as built', built,
                 [Asked(n, None) for n in random_numbers(dice, base, 8)],
                 random_length(dice), labels=random_labels(dice, base))


def random_place(dice, built):
    (name, number), section = dice.one(sorted(built.sections.items()))
    return place_start(name, built.state.tables[ORDER.index(name)].half, number), section


def hurt_bits(dice, built):
    """One or two bits of a live section, perhaps with the CRC put right."""
    start, section = random_place(dice, built)
    for _ in range(dice.between(1, 2)):
        section = flipped(section, dice.below(8 * len(section) - 32))
    return built.state, [(start, reseal(section) if dice.below(3) else section)]


def hurt_by_other(dice, built):
    """The section of one place at another one."""
    return built.state, [(random_place(dice, built)[0], random_place(dice, built)[1])]


def hurt_state(dice, built):
    """A byte of the state: mostly a small value, so that it often stays well formed."""
    name, field = dice.one(ORDER), dice.one(FIELDS)
    table = changed(built.state.tables[ORDER.index(name)],
                    **{field: dice.below(256) if dice.chance(4) else dice.below(5)})
    return with_table(built.state, name, table), []


def hurt_half(dice, built):
    name = dice.one(ORDER)
    table = built.state.tables[ORDER.index(name)]
    return with_table(built.state, name, table._replace(half=1 - table.half)), []


def hurt_store(dice, built):
    """Bytes anywhere."""
    return built.state, [(dice.below(STORE_BYTES - 8), dice.bytes(dice.between(1, 8))) for _ in range(6)]


def hurt_draft(dice, built):
    """Any section that reads right as what is live, then perhaps broken."""
    name = dice.one(ORDER)
    table = built.state.tables[ORDER.index(name)]
    number = dice.below(table.live.last + 1)
    draft = draft_for(dice, name, number, built.state)
    if dice.chance(2):
        break_anything(dice, draft)
    section = seal(draft.number, draft.rest() or b'\0', draft.top)
    return built.state, [(place_start(name, table.half, number), section)]


def hurt_all(dice, built):
    return any_state(dice, built.state.map_number, built.state.language), []


def hurt_language(dice, built):
    return built.state._replace(language=any_language(dice)), []


WAYS = (hurt_bits, hurt_bits, hurt_bits, hurt_draft, hurt_draft, hurt_by_other, hurt_state, hurt_half, hurt_store,
        hurt_all, hurt_language)


def random_damaged(dice):
    base, built = random_built(dice)
    way = dice.one(WAYS)
    state, more = way(dice, built)
    return trial(dice, 'random damage', way.__name__.replace('_', ' '), built._replace(state=state),
                 [Asked(n, None) for n in random_numbers(dice, base, 4)], more=more,
                 labels=random_labels(dice, base)[:3])


def random_trials(dice, count):
    """One damaged of three."""
    for at in range(count):
        yield random_damaged(dice) if at % 3 == 2 else random_whole(dice)


DIRECTED = LOOKUPS + CHECKS + LABELS + (full_plants,)


def batch(seed, count):
    """All directed trials, then so many random ones."""
    dice = Dice(seed)
    trials = [each for make_trials in DIRECTED for each in make_trials(dice)]
    trials.extend(random_trials(dice, count))
    return trials
