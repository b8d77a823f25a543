"""Mofrindi: writes the inputs of the benchmark into a folder: inputs.py FOLDER.

NAME.sections   for measure's check: each section with its length (4 bytes, lowest first) in front
NAME.offer      for measure's offer: a state (45 bytes), a store (40,960) and a section
NAME.store      for measure's tune and label: a state and a store
NAME.capture    for the line-up: two bytes of map number, then sections back to back
"""

import os
import sys

sys.dont_write_bytecode = True
sys.path.insert(0, os.path.join(os.path.dirname(os.path.abspath(__file__)), '..', 'tests', 'second'))

from generate.pieces import NUMBERS, Dice, descriptor, revision, seal, two
from generate.plants import (LISTED, MAP, Body, analogue, application, by10, by125, carriers, digital, front_bytes,
                             mode, name_of, record_bytes, section_of_body, spans)
from generate.sections import batch
from generate.texts import ENGLISH, plain, sixteen_bit
from generate.trials import state_bytes, store_of
from program import label
from program.receiver import FRESH, NO_GATHERED, ORDER, STORE_BYTES, Gathered, Live, State, Table, place_start
from program.section import CDS, DCM, MMS, NTT, VCM, check
from program.tuning import NEEDED

SECTIONS = 4
LONGEST = 1024
VERSION = 5
RECORDLESS = {CDS: 16, MMS: 16, VCM: 23, DCM: 19, NTT: 18}       # bytes of a section with the revision alone
RECORD = {CDS: 6, MMS: 7, VCM: 9, DCM: 1, NTT: 20}      # bytes of a record, with its descriptor count
MOST_RANGES = 127
LENGTHS = (24, 64, 128, 256, 384, 512, 640, 768, 896, 1024)      # of one section
STORE_LENGTHS = (256, 512, 1024)
STREAM_BYTES = (250000, 500000, 1000000, 4000000, 16000000)
QAM64, QAM256 = (2, 15, 0, 7, 5056941), (2, 15, 0, 16, 5360537)
LAST_CHANNEL = 3071
SMALL_SECTIONS = 64
MOST_BYTES = 4098
ANY_SECTIONS = 6000             # at least; of all kinds, most of them refused: they are compared and not counted


# ------------------------------------------------------------------- sections

def closing(version, number, last, gap):
    """The revision and unknown descriptors that fill the gap; one byte alone goes into the revision's body."""
    whole = revision(version, number, last)
    if gap == 1:
        return descriptor(whole[0], whole[2:] + bytes(1))
    while gap:
        size = gap if gap <= 257 else 255
        whole += descriptor(0x40, bytes(size - 2))
        gap -= size
    return whole


def section(dice, name, body, version=VERSION, number=0, last=0, length=None):
    """A section of this length, or of the least, that reads right."""
    front = front_bytes(dice, name, MAP, body, ENGLISH)
    front += b''.join(record_bytes(each, name in LISTED) for each in body.records)
    least = 3 + len(front) + 5 + 4
    made = seal(NUMBERS[name], front + closing(version, number, last, (length or least) - least))
    if check(made) != 0:
        sys.exit('inputs.py: a %s section reads wrong (%d)' % (name, check(made)))
    return made


def records_in(name, length):
    """As many as fit."""
    most = (length - RECORDLESS[name]) // RECORD[name]
    return min(most, MOST_RANGES) if name == DCM else most


# --------------------------------------------------------------- a full plant

CARRIERS, MODES, CHANNELS, RANGES = 84, 98, 111, 127    # records of a section: 598 bytes a section on average


def plant_channel(at):
    """One in eight analogue, one in sixteen an application."""
    number = 1 + 9 * at
    if at % 16 == 7:
        return application(number, 100 + at)
    if at % 8 == 3:
        return analogue(number, 1 + at % 250, standard=at % 5)
    return digital(number, 1 + at % 250, 1 + at % 30, 1 + at % 250)


def plant_body(name, part):
    if name == CDS:
        first = 1 + 57 * part
        return Body(first, [carriers(1, by10(600), by125(456 + 29 * (first + at))) for at in range(CARRIERS)])
    if name == MMS:
        return Body(1 + 52 * part, [mode(QAM64 if at % 2 else QAM256) for at in range(MODES)])
    if name == VCM:
        return Body(0, [plant_channel(CHANNELS * part + at) for at in range(CHANNELS)])
    return Body(1 + 8 * RANGES * part, spans('08 88 88 88 88 88 88 88'.replace(' ', '') * 15 + '88' * 7))


def plant(dice):
    return [section(dice, name, plant_body(name, part), number=part, last=SECTIONS - 1)
            for name in NEEDED for part in range(SECTIONS)]


def small_body(dice, name):
    if name == CDS:
        return Body(dice.between(1, 200), [carriers(dice.between(1, 5), by10(600), by125(480))] * dice.between(1, 4))
    if name == MMS:
        return Body(dice.between(1, 200), [mode(QAM64)] * dice.between(1, 4))
    if name == VCM:
        return Body(0, [plant_channel(dice.below(400)) for _ in range(dice.between(1, 4))])
    return Body(dice.between(0, 1000), spans('84' * dice.between(8, 36)))


def small_sections(dice):
    """Of 20 to 60 bytes, some with descriptors that aren't known."""
    made = []
    while len(made) < SMALL_SECTIONS:
        name = NEEDED[len(made) % len(NEEDED)]
        one = section_of_body(dice, name, MAP, small_body(dice, name), VERSION, 0, 0)
        if 20 <= len(one) <= 60 and check(one) == 0:
            made.append(one)
    return made


# ------------------------------------------------------------------------- names

def name_text(number):
    """15 bytes; one in four has two blocks, the second of them with characters of 16 bits."""
    if number % 4 == 3:
        return plain('Canal') + sixteen_bit('%3d' % (number % 1000))
    return plain('Channel %5d' % number)


def names(first, count):
    """Of so many numbers; one in sixteen is an application's."""
    return Body(0, [name_of(int(at % 16 == 7), first + at, name_text(first + at)) for at in range(count)])


# -------------------------------------------------- one section of a given length

def lone_body(name, length):
    count = records_in(name, length)
    if name == CDS:
        return Body(1, [carriers(1, by10(600), by125(456))] * count)
    if name == MMS:
        return Body(1, [mode(QAM64)] * count)
    if name == VCM:
        return Body(0, [plant_channel(at) for at in range(count)])
    if name == NTT:
        return names(1, count)
    return Body(1, spans('84' * count))


def lone_section(dice, name, length):
    return section(dice, name, lone_body(name, length), length=length)


# ------------------------------------------------------------------ a full store

def store_bodies(length):
    """Channel 1 goes by the first record of every table, channel 3071 by the last one of every table."""
    count = {name: records_in(name, length) for name in NEEDED}
    # the first sections of CDS and MMS have the index 1, the others begin at 2 or 1; only the last of all has 200
    cds = [Body(1 if part == 0 else 2, [carriers(1, by10(600), by125(456))] * count[CDS]) for part in range(SECTIONS)]
    cds[-1] = Body(200 - count[CDS] + 1, cds[-1].records)
    mms = [Body(1, [mode(QAM64)] * count[MMS]) for part in range(SECTIONS)]
    mms[-1] = Body(200 - count[MMS] + 1, mms[-1].records)
    vcm = [Body(0, [digital(1 + part * count[VCM] + at, 1, 7, 1) for at in range(count[VCM])])
           for part in range(SECTIONS)]
    vcm[-1].records[-1] = digital(LAST_CHANNEL, 200, 7, 200)
    # all but the very last ranges end below channel 3070
    ranges = spans('86' * count[DCM])
    dcm = [Body(1 + part * 6 * count[DCM], ranges) for part in range(SECTIONS)]
    dcm[-1] = Body(LAST_CHANNEL - 6 * count[DCM] + 1, ranges)
    return {CDS: cds, MMS: mms, VCM: vcm, DCM: dcm}


def named_bodies(length):
    """The same with names, that of channel n by source n: 1 has the first of the table, 3071 the last, and 2 none."""
    bodies, count = store_bodies(length), records_in(NTT, length)
    bodies[NTT] = [names(1 + part * count, count) for part in range(SECTIONS)]
    channels = records_in(VCM, length)
    for part, body in enumerate(bodies[VCM]):
        first = 1 + part * channels
        body.records[:] = [digital(number, 1, 7, 1, source=number) for number in range(first, first + channels)]
    bodies[VCM][0].records[1] = digital(2, 1, 7, 1, source=0)
    bodies[VCM][-1].records[-1] = digital(LAST_CHANNEL, 200, 7, 200, source=SECTIONS * count)
    return bodies


def filled(dice, bodies, length):
    """A state and a store in which all places of these tables are live, with sections of this length."""
    store = store_of(STORE_BYTES, 1)
    for name in bodies:
        for part, body in enumerate(bodies[name]):
            made = section(dice, name, body, number=part, last=SECTIONS - 1, length=length)
            start = place_start(name, 0, part)
            store[start:start + length] = made
    live = Table(Live(1, VERSION, SECTIONS - 1), NO_GATHERED, 0)
    return State(MAP, tuple(live if name in bodies else FRESH for name in ORDER), ENGLISH), store


def full_store(dice, length):
    """16 live places; names aren't live."""
    state, store = filled(dice, store_bodies(length), length)
    return state_bytes(state) + bytes(store)


def named_store(dice, length):
    """All 20 live places. What the labels are is asked of the second program."""
    state, store = filled(dice, named_bodies(length), length)
    last = SECTIONS * records_in(NTT, length)
    for channel, shown in ((1, name_text(1)), (LAST_CHANNEL, name_text(last)), (2, b'')):
        if label.shown(label.question(state, store, channel), store, b'') != shown:
            sys.exit('inputs.py: channel %d has another label' % channel)
    return state_bytes(state) + bytes(store)


# ------------------------------------------------------------------------ offers

HELD = Table(FRESH.live, Gathered(1, VERSION, 1, 1), 1)
ONCE_LIVE = Table(Live(1, VERSION, 0), NO_GATHERED, 0)
# name: what is held of every table, and number and last of the section that is offered
OFFERS = {'repeats': (ONCE_LIVE, 0, 0), 'is_stored': (FRESH, 0, 1), 'goes_live': (HELD, 1, 1)}


def offer_input(dice, kind, name, length):
    held, number, last = OFFERS[kind]
    made = section(dice, name, lone_body(name, length), number=number, last=last, length=length)
    return state_bytes(State(MAP, (held,) * len(ORDER), ENGLISH)) + bytes(store_of(STORE_BYTES, 2)) + made


# ----------------------------------------------------------------------- streams

def stream(sections, most):
    """The sections again and again, while the next one ends within so many bytes."""
    whole = b''.join(sections)
    data = two(MAP) + whole * ((most - 2) // len(whole))
    for each in sections:
        if len(data) + len(each) > most:
            break
        data += each
    return data


# ------------------------------------------------------------------- all of them

def framed(sections):
    """Without those that are longer than any firmware's buffer."""
    return b''.join(len(each).to_bytes(4, 'little') + each for each in sections if len(each) <= MOST_BYTES)


def inputs():
    """Pairs of a file's name and its bytes."""
    dice = Dice(1)
    whole = plant(dice)
    yield 'plant.sections', framed(whole)
    yield 'small.sections', framed(small_sections(dice))
    yield 'any.sections', framed(item.section for item in batch(1, ANY_SECTIONS, 1))
    for length in LENGTHS:
        alone = [lone_section(dice, name, length) for name in ORDER]
        yield 'all_%d.sections' % length, framed(alone[:len(NEEDED)])
        for name, each in zip(ORDER, alone):
            yield '%s_%d.sections' % (name.lower(), length), framed([each])
    for length in STORE_LENGTHS:
        yield '%d.store' % length, full_store(dice, length)
    for kind in OFFERS:
        yield kind + '_full.offer', offer_input(dice, kind, VCM, 1022)
        yield kind + '_small.offer', offer_input(dice, kind, CDS, 22)
        yield kind + '_names.offer', offer_input(dice, kind, NTT, 1022)
    yield 'plant.capture', two(MAP) + b''.join(whole)
    for size in STREAM_BYTES:
        yield 'stream_%d.capture' % size, stream(whole, size)
    yield 'named.store', named_store(dice, LONGEST)


def main():
    if len(sys.argv) != 2:
        sys.exit('inputs.py: takes the name of a folder')
    try:
        for name, data in inputs():
            with open(os.path.join(sys.argv[1], name), 'wb') as file:
                file.write(data)
    except OSError as error:
        sys.exit('inputs.py: %s: %s' % (error.filename, error.strerror))


if __name__ == '__main__':
    main()
