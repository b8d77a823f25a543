"""Mofrindi: plants for the trials of tuning and labels: their records, sections and places in a store.

A plant says for each of the four tables that tuning needs, and perhaps for names, what its sections hold.
build() makes it live: a state, and the sections as pieces of a store.  trial() asks channels of it.
"""

from collections import namedtuple

from generate.pieces import NUMBERS, SUBTYPE, any_descriptor, descriptor, named, seal, two
from generate.texts import ENGLISH, plain
from program.label import Fallback
from program.receiver import (MOST_LAST, NO_GATHERED, NO_LIVE, ORDER, PLACE_BYTES, STORE_BYTES, Gathered, Live, State,
                              Table, numbers_to, place_start)
from program.section import CDS, DCM, MMS, NTT, REVISION, VCM, Refusal
from program.tuning import Analogue, Application, Digital, ModeRecord

MAP = 0x1234

# data has no descriptor count; descriptors are whole ones, as bytes.
Record = namedtuple('Record', 'data descriptors')
# first is the first index, the first channel, for a VCM descriptors-included, and nothing for names.
Body = namedtuple('Body', 'first records')
# claims has an answer, or None where none is claimed, for each of the channels; label_claims has the same for
# the channels whose labels are asked: a refusal, the bytes of the name, or that it is the fallback.
Trial = namedtuple('Trial', 'family name state length seed pieces channels claims fallback labelled label_claims')
Asked = namedtuple('Asked', 'channel claim')
# sections are {(table, number): bytes}; pieces are (place in the store, bytes), one written after the other.
Built = namedtuple('Built', 'state pieces sections')


# -------------------------------------------------------------------- records

def by10(units):
    return units


def by125(units):
    return 0x8000 | units


def carriers(count, spacing, first):
    return Record(bytes([count]) + two(spacing) + two(first), ())


def carrier_word(khz):
    return by125(khz // 125) if khz % 125 == 0 else by10(khz // 10)


def carrier_at(khz):
    return carriers(1, by10(0), carrier_word(khz))


def mode(values):
    system, inner, split, modulation, symbols = values
    return Record(bytes([system << 4 | inner, split << 7 | modulation]) + symbols.to_bytes(4, 'big'), ())


def channel(number, application, path, transport, kind, source, carrier, rest):
    flags = application << 7 | path << 5 | transport << 4 | kind
    return Record(two(number) + bytes([flags]) + two(source) + bytes([carrier]) + rest, ())


def digital(number, carrier, program, mode_index, hidden=0, path=0, application=0, source=0x1234):
    return channel(number, application, path, 0, hidden, source, carrier, two(program) + bytes([mode_index]))


def analogue(number, carrier, standard=0, scrambled=0, hidden=0, path=0, application=0, source=0x1235):
    return channel(number, application, path, 1, hidden, source, carrier,
                   bytes([scrambled << 7 | standard, 0, 0]))


def application(number, source, hidden=0, path=0, carrier=0, program=0, mode_index=0):
    return digital(number, carrier, program, mode_index, hidden, path, 1, source)


def name_of(application, number, name):
    """A record of names."""
    return Record(named(application, number, name), ())


def spans(text):
    """Range bytes of a DCM from hex."""
    return [Record(bytes([byte]), ()) for byte in bytes.fromhex(text)]


# ------------------------------------------------------------------- sections

EMPTY = {CDS: Body(1, []), MMS: Body(1, []), VCM: Body(0, []), DCM: Body(0, []), NTT: Body(0, [])}
LISTED = (CDS, MMS, NTT)        # a descriptor count stands behind each record


def record_bytes(record, listed):
    if not listed:
        return record.data
    return record.data + bytes([len(record.descriptors)]) + b''.join(record.descriptors)


def front_bytes(dice, name, map_number, body, language):
    """Byte 3 up to the records; splice and activation time, which aren't acted on, are drawn."""
    count = len(body.records)
    if name in (CDS, MMS):
        return bytes([0, body.first, count, SUBTYPE[name]])
    if name == NTT:
        return b'\x00' + language + bytes([SUBTYPE[name], count])
    front = bytes([0, SUBTYPE[name]]) + two(map_number)
    if name == DCM:
        return front + two(body.first) + bytes([count])
    return front + bytes([body.first << 5, dice.below(2) << 7]) + dice.bytes(4) + bytes([count])


def closing_bytes(dice, version, number, last, room):
    """The revision, perhaps with others before and behind it; others only while there is room."""
    whole = descriptor(REVISION, bytes([dice.below(8) << 5 | version, number, last]))
    for _ in range(dice.below(3) if dice.chance(4) else 0):
        other = any_descriptor(dice, True)
        if len(whole) + len(other) <= room:
            whole = other + whole if dice.chance(2) else whole + other
    return whole


def section_of_body(dice, name, map_number, body, version, number, last, language=ENGLISH):
    """A section (v, n, last) with this body that reads right."""
    listed = name in LISTED or name == VCM and body.first == 1
    front = front_bytes(dice, name, map_number, body, language)
    front += b''.join(record_bytes(record, listed) for record in body.records)
    closing = closing_bytes(dice, version, number, last, PLACE_BYTES - 7 - len(front))
    return seal(NUMBERS[name], front + closing, dice.below(4) << 4)


def lure(dice, record):
    """A descriptor whose body is this record with a bit changed, or a revision that doesn't count."""
    if dice.chance(4):
        return descriptor(REVISION, bytes([dice.below(256), 0, dice.below(4)]))
    data = bytearray(record.data)
    data[dice.below(len(data))] ^= 1 << dice.below(8)
    return descriptor(dice.one((0x40, 0x80, 1, record.data[0])), data + bytes(dice.below(2)))


def with_lists(dice, name, body):
    """The same records with descriptors behind them, while there is room; a DCM has no such lists."""
    if name == DCM:
        return body
    room = PLACE_BYTES - 50 - sum(len(record.data) + 1 for record in body.records)
    records = []
    for record in body.records:
        lures = [lure(dice, record) for _ in range(dice.below(4))]
        while sum(map(len, lures)) > room:
            lures.pop()
        room -= sum(map(len, lures))
        records.append(record._replace(descriptors=tuple(lures)))
    return Body(1 if name == VCM else body.first, records)


def padded(section, total):
    """The section made longer by at least two bytes, with unknown descriptors at its end."""
    gap, fillers = total - len(section), b''
    while gap:
        size = gap if gap <= 257 else 255
        fillers += descriptor(0x40, bytes(size - 2))
        gap -= size
    return seal(section[0], section[3:-4] + fillers)


# --------------------------------------------------------- the standard plant

# Section s of four has, at index 1 + 2s and 2 + 2s, at 1 + s, and from channel 10 + 4s on:
STANDARD_KHZ = ((57000, 63000), (300010, 309010), (54000, 999000), (1002000, 700125))
STANDARD_MODES = (ModeRecord(2, 15, 0, 8, 5056941), ModeRecord(4, 0, 1, 1, 1),
                  ModeRecord(0, 7, 0, 24, 0xFFFFFFF), ModeRecord(3, 11, 1, 16, 0x1234567))
FIRST_CHANNEL = 10
STEP = 4
SECTIONS = 4
FIVE = (SECTIONS,) * len(ORDER)     # as many sections of each table, names too
STANDARD = range(FIRST_CHANNEL - 1, FIRST_CHANNEL + STEP * SECTIONS + 1)     # its channels, and those beside it


def standard_source(number):
    return 0x1000 + number


def standard_text(application, number, s):
    """The name of a source or an application in section s."""
    return plain('%s %X of %d' % ('Radio' if application else 'Canal', number, s))


def standard_names(s):
    """Of the three channels of section s; in front of each the name of the same number with the other flag."""
    start = FIRST_CHANNEL + STEP * s
    pairs = [(0, standard_source(start)), (0, standard_source(start + 1)), (1, 0x8001 + s)]
    return Body(0, [name_of(flag, number, standard_text(flag, number, s))
                    for application, number in pairs for flag in (1 - application, application)])


def standard_body(name, s):
    start = FIRST_CHANNEL + STEP * s
    if name == NTT:
        return standard_names(s)
    if name == CDS:
        return Body(1 + 2 * s, [carrier_at(khz) for khz in STANDARD_KHZ[s]])
    if name == MMS:
        return Body(1 + s, [mode(STANDARD_MODES[s])])
    if name == VCM:
        return Body(0, [digital(start, 1 + 2 * s, 100 + s, 1 + s, hidden=s & 1, path=s >> 1,
                                source=standard_source(start)),
                        analogue(start + 1, 2 + 2 * s, standard=s + 1, scrambled=s & 1, path=s & 1,
                                 source=standard_source(start + 1)),
                        application(start + 2, 0x8001 + s, hidden=s >> 1)])
    return Body(start, spans('83 01'))


def standard(counts=(SECTIONS,) * 4):
    """So many sections of each table, in the order of ORDER; without a fifth number there are no names."""
    return {name: [standard_body(name, s) for s in range(count)] for name, count in zip(ORDER, counts)}


def standard_answer(number, counts=(SECTIONS,) * 4):
    """What document 01 says of a channel of the standard plant; a number is that of a refusal."""
    of_cds, of_mms, of_vcm, of_dcm = counts[:4]
    s, kind = divmod(number - FIRST_CHANNEL, STEP)
    if not 0 <= s < of_dcm or kind == 3:
        return 17
    if s >= of_vcm:
        return 18
    if kind == 2:
        return Application(s >> 1, 0, 0x8001 + s)
    if s >= of_cds:
        return 19
    if kind == 1:
        return Analogue(0, s & 1, STANDARD_KHZ[s][1], s + 1, s & 1)
    if s >= of_mms:
        return 21
    return Digital(s & 1, s >> 1, STANDARD_KHZ[s][0], 100 + s, STANDARD_MODES[s])


def standard_label(number, counts=FIVE):
    """What request 2026-01 says of its label: a refusal's number, the name's bytes, or the fallback."""
    s, kind = divmod(number - FIRST_CHANNEL, STEP)
    answer = standard_answer(number, counts)
    if answer in (17, 18):
        return answer
    if s >= counts[4]:
        return Fallback()
    application = int(kind == 2)
    return standard_text(application, 0x8001 + s if application else standard_source(number), s)


def shifted_plant():
    """A plant unlike the standard one for every channel asked, and with all channels defined."""
    return {CDS: [Body(1, [carriers(8, by125(40), by125(1000))])],
            MMS: [Body(1, [mode(ModeRecord(0, 0, 0, 0, 9))] * 4)],
            VCM: [Body(0, [digital(n, 8, 999, 4) for n in STANDARD])], DCM: [Body(0, spans('FF'))]}


# ------------------------------------------------------------------ made live

def gathering_beside(dice, version):
    """Nothing, or another version of which some sections are held."""
    if dice.chance(2):
        return NO_GATHERED
    last = dice.between(1, MOST_LAST)
    other = (version + dice.between(1, 31)) % 32
    return Gathered(1, other, last, dice.between(1, numbers_to(last) - 1))


def live_table(dice, last, half=None, version=None):
    version = dice.below(32) if version is None else version
    return Table(Live(1, version, last), gathering_beside(dice, version),
                 dice.below(2) if half is None else half)


def no_names(dice):
    """The fifth table where a plant has no names: nothing, gathered ones, or live ones that aren't in their place."""
    if dice.chance(3):
        return live_table(dice, dice.below(SECTIONS))
    return live_table(dice, 0)._replace(live=NO_LIVE)


def live_tables(dice, plant, halves=()):
    half_of = dict(zip(ORDER, halves))
    return {name: live_table(dice, len(plant[name]) - 1, half_of.get(name)) if name in plant else no_names(dice)
            for name in ORDER}


def decoys(dice, tables, map_number, plant):
    """Sections of another plant at every place: of what is gathered there, or as if they were live."""
    for name in plant:
        table = tables[name]
        for half in (0, 1):
            for number in range(SECTIONS):
                part = table.live
                if half != table.half and table.gathered.held >> number & 1:
                    part = table.gathered
                body = plant[name][number % len(plant[name])]
                yield (place_start(name, half, number),
                       section_of_body(dice, name, map_number, body, part.version, number,
                                       max(part.last, number)))


def build(dice, plant, tables=None, map_number=MAP, other=None, language=ENGLISH):
    """The plant live; other is a plant whose sections stand in all places that aren't live."""
    tables = live_tables(dice, plant) if tables is None else tables
    pieces = [] if other is None else list(decoys(dice, tables, map_number, other))
    sections = {}
    for name in plant:
        live = tables[name].live
        for number, body in enumerate(plant[name]):
            section = section_of_body(dice, name, map_number, body, live.version, number, live.last, language)
            sections[name, number] = section
            pieces.append((place_start(name, tables[name].half, number), section))
    return Built(State(map_number, tuple(tables[name] for name in ORDER), language), tuple(pieces), sections)


# ------------------------------------------------------------------ making trials

def inside_store(pieces, length):
    """What of the pieces lies inside a store that may be short."""
    cut = [(place, data[:max(length - place, 0)]) for place, data in pieces]
    return tuple((place, data) for place, data in cut if data)


def trial(dice, family, name, built, asked, length=STORE_BYTES, more=(), labels=None, fallback=None):
    """more are further pieces, written behind those of built.

    Where no labels are given, in one of three trials one of the channels is asked for its own; where no fallback
    is given one is drawn.
    """
    if labels is None:
        labels = [Asked(dice.one(asked).channel, None)] if dice.chance(3) else []
    if fallback is None:
        fallback = dice.bytes(dice.below(9))
    return Trial(family, name, built.state, length, dice.below(256),
                 inside_store(built.pieces + tuple(more), length),
                 tuple(each.channel for each in asked), tuple(each.claim for each in asked), fallback,
                 tuple(each.channel for each in labels), tuple(each.claim for each in labels))


def asks(answers):
    """From {channel: answer}; a number stands for its refusal."""
    return [Asked(number, Refusal(answer) if isinstance(answer, int) else answer)
            for number, answer in answers.items()]


def standard_asks(numbers=STANDARD, counts=(SECTIONS,) * 4):
    return asks({number: standard_answer(number, counts) for number in numbers})


def standard_labels(numbers=STANDARD, counts=FIVE):
    return asks({number: standard_label(number, counts) for number in numbers})


def all_refused(refusal, numbers):
    """Claims of one refusal; numbers above 4095 have 14 if the refusal comes behind it."""
    return asks({number: 14 if number > 4095 and refusal > 14 else refusal for number in numbers})


def plant(**tables):
    """The standard plant with these tables, each a list of bodies, in place of its own."""
    return dict(standard(), **{name.upper(): bodies for name, bodies in tables.items()})


def listed(dice, whole):
    """The plant with descriptors behind all its records."""
    return {name: [with_lists(dice, name, body) for body in bodies] for name, bodies in whole.items()}


def both_ways(dice, family, name, whole, answers):
    """The plant as it is, and with descriptors behind its records and other sections all around."""
    yield trial(dice, family, name, build(dice, whole), asks(answers))
    grown = build(dice, listed(dice, whole), other=standard())
    yield trial(dice, family, name + ', descriptors and other sections', grown, asks(answers))
