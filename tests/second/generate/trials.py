"""Mofrindi: a seeded generator of trials for comparing two receivers.

A trial is a state, a store and the sections offered to them one after the other.  batch() gives the directed
trials, each with a family and a name, then random ones; request() gives the bytes of a trial for a program.
"""

import itertools
import sys
from collections import namedtuple

sys.dont_write_bytecode = True

from generate.clauses_of_names import from_clauses
from generate.drafts import fill, make
from generate.pieces import Dice, seal, two
from generate.sections import random_damaged, random_garbage, random_plain
from generate.texts import ENGLISH, OTHER_LANGUAGES, another_language, any_language
from program.receiver import (FRESH, LIVE, MOST_LAST, NO_GATHERED, NO_LIVE, ORDER, PLACE_BYTES, REFUSED, REPEAT,
                              STORE_BYTES, STORED, Answer, Gathered, Live, State, Table, fresh, numbers_to)
from program.section import DCM, MMS, NTT, VCM

# claims has an answer, or None where none is claimed, for each of the sections.
Trial = namedtuple('Trial', 'family name state length seed sections claims')
Offer = namedtuple('Offer', 'section claim')

MAP = 0x1234
MOST_STORE = 65536
MOST_SECTION = 65535
FOUR_TABLES = 32768     # bytes, all that a box of an earlier build was lent
STORE_LENGTHS = (0, 1, 1024, 32767, FOUR_TABLES, 32769, 40959, 40960, 40961, MOST_STORE)
LONGER = 50000          # bytes of a store with some behind the last place
SHORTEST = {'CDS': 16, 'MMS': 16, 'VCM': 23, 'DCM': 19, 'NTT': 18}     # no record, and the revision alone
# The tables whose sections may be another map's: names that are in another language.
MAPPED = (VCM, DCM, NTT)


# --------------------------------------------------------------- states as bytes

FIELDS = ('live_present', 'live_version', 'live_last',
          'gathered_present', 'gathered_version', 'gathered_last', 'gathered_held', 'half')


def flat(table):
    """The eight bytes of a table, in the order of FIELDS."""
    return list(table.live + table.gathered + (table.half,))


def table_of(values):
    return Table(Live(*values[:3]), Gathered(*values[3:7]), values[7])


def changed(table, **fields):
    values = flat(table)
    for field, value in fields.items():
        values[FIELDS.index(field)] = value
    return table_of(values)


def state_bytes(state):
    tables = bytes(sum((flat(table) for table in state.tables), []))
    return state.map_number.to_bytes(2, 'little') + tables + state.language


# ------------------------------------------------------------- the wire of a trial

def pattern_byte(at):
    return (31 * at + 17 * (at // 256)) % 256


PATTERN = bytes(pattern_byte(at) for at in range(MOST_STORE))


def store_of(length, seed):
    """Byte i is (seed + 31 * i + 17 * (i // 256)) % 256."""
    return bytearray(PATTERN[:length].translate(bytes((byte + seed) % 256 for byte in range(256))))


def request(trial):
    parts = [state_bytes(trial.state), trial.length.to_bytes(4, 'little'), bytes([trial.seed]),
             len(trial.sections).to_bytes(2, 'little')]
    for section in trial.sections:
        parts += [len(section).to_bytes(2, 'little'), section]
    return b''.join(parts)


# ------------------------------------------------------------ sections and states

def set_owner(draft, map_number, language):
    """The draft's map number or language, if it has one."""
    if draft.table in (VCM, DCM):
        draft.data('header')[2:4] = two(map_number)
    if draft.table == NTT:
        draft.data('header')[1:4] = language


def section_of(dice, table, map_number, version, number, last, total=None, language=ENGLISH):
    """A section (v, n, last) that reads right, of so many bytes if total is given."""
    if total is None:
        draft = make(dice, table)
    else:
        # Four records and their lists stay below 400 bytes.
        draft = make(dice, table, None if total > 400 else 0, others=0)
    draft.data('revision')[2:5] = bytes([dice.below(8) << 5 | version, number, last])
    set_owner(draft, map_number, language)
    if total is not None:
        fill(dice, draft, total)
    return draft.whole()


def another_map(dice, map_number):
    """Most of them one bit away."""
    return map_number ^ (1 << dice.below(16) if dice.below(4) else dice.between(1, 0xFFFF))


def another_owner(dice, map_number, language=ENGLISH):
    """(map number, language) of which neither is ours, so that a section of any table of MAPPED isn't."""
    return another_map(dice, map_number), another_language(dice, language)


def bad_section(dice, table):
    """Most of them are refused; some have a right CRC."""
    return dice.one((random_damaged, random_garbage, random_plain))(dice, table).section


def live(version, last):
    return Live(1, version, last)


def gathered(version, last, *numbers):
    return Gathered(1, version, last, sum(1 << number for number in numbers))


def any_table(dice):
    """A well-formed table; versions near each other, so that offers meet them."""
    lives, gathering = NO_LIVE, NO_GATHERED
    version = dice.below(32)
    if dice.below(3):
        lives = live(version, dice.below(4))
    if dice.below(3):
        last = dice.between(1, MOST_LAST)
        other = (version + dice.one((1, 31, dice.between(1, 31)))) % 32
        gathering = Gathered(1, other, last, dice.between(1, numbers_to(last) - 1))
    return Table(lives, gathering, dice.below(2))


def any_state(dice, map_number=MAP, language=ENGLISH):
    return State(map_number, tuple(any_table(dice) for _ in ORDER), language)


def with_table(state, name, table):
    at = ORDER.index(name)
    return state._replace(tables=state.tables[:at] + (table,) + state.tables[at + 1:])


def given(dice, name, table, map_number=MAP, language=ENGLISH):
    """A state with this table; the other tables are well formed, anyhow."""
    return with_table(any_state(dice, map_number, language), name, table)


def trial(dice, family, name, state, offers, length=STORE_BYTES):
    return Trial(family, name, state, length, dice.below(256), tuple(offer.section for offer in offers),
                 tuple(offer.claim for offer in offers))


def refused(number):
    return Answer(REFUSED, number)


def next_name(name):
    return ORDER[(ORDER.index(name) + 1) % len(ORDER)]


def shuffled(dice, things):
    left = list(things)
    return [left.pop(dice.below(len(left))) for _ in things]


# ------------------------------------------------------------------ refusal 2

BOTH = Table(live(5, 1), gathered(9, 2, 0), 0)
ONLY_LIVE = BOTH._replace(gathered=NO_GATHERED)
ONLY_GATHERED = BOTH._replace(live=NO_LIVE)
PROBE = 12              # a version that none of these has

# (name, table): just inside refusal 2.
INSIDE = [('nothing live or gathered, half %d' % half, FRESH._replace(half=half)) for half in (0, 1)]
INSIDE += [(name + ', half %d' % half, table._replace(half=half)) for half in (0, 1) for name, table in (
    ('only live', ONLY_LIVE), ('only gathered', ONLY_GATHERED), ('live and gathered', BOTH),
    ('live version 31', changed(BOTH, live_version=31)), ('live version 0', changed(BOTH, live_version=0)),
    ('live last 0', changed(BOTH, live_last=0)), ('live last 3', changed(BOTH, live_last=3)),
    ('gathered version 31', changed(BOTH, gathered_version=31)),
    ('gathered version 0', changed(BOTH, gathered_version=0)),
    ('gathered version 0, nothing live', changed(ONLY_GATHERED, gathered_version=0)),
    ('live version 0, nothing gathered', changed(ONLY_LIVE, live_version=0)),
    ('live 0/0, nothing gathered', changed(ONLY_LIVE, live_version=0, live_last=0)),
    ('versions 31 and 30', changed(BOTH, live_version=31, gathered_version=30)),
    ('the same last', changed(BOTH, live_last=2)))]
INSIDE += [('held 0x%X of last %d' % (held, last), changed(table, gathered_last=last, gathered_held=held))
           for table in (BOTH, ONLY_GATHERED) for last in (1, 2, 3) for held in range(1, numbers_to(last))]

# (name, table): just outside, one clause each, and some further out.
OUTSIDE = [('live version %d' % value, changed(table, live_version=value))
           for table in (BOTH, ONLY_LIVE) for value in (32, 37, 64, 128, 255)]
OUTSIDE += [('gathered version %d' % value, changed(table, gathered_version=value))
            for table in (BOTH, ONLY_GATHERED) for value in (32, 41, 64, 128, 255)]
OUTSIDE += [('live last %d' % value, changed(table, live_last=value))
            for table in (BOTH, ONLY_LIVE) for value in (4, 5, 7, 128, 255)]
OUTSIDE += [('gathered last %d, held 0x%X' % (value, held),
             changed(table, gathered_last=value, gathered_held=held))
            for table in (BOTH, ONLY_GATHERED) for value in (4, 5, 7, 8, 128, 255) for held in (1, 15)]
OUTSIDE += [('half %d' % value, table._replace(half=value))
            for table in (BOTH, ONLY_LIVE, ONLY_GATHERED, FRESH) for value in (2, 3, 128, 255)]
OUTSIDE += [('held %s of last %d' % (said, last), changed(table, gathered_last=last, gathered_held=held))
            for table in (BOTH, ONLY_GATHERED) for last in (0, 1, 2, 3)
            for said, held in (('empty', 0), ('complete', numbers_to(last)),
                               ('one above', 2 << last), ('0 and one above', 1 | 2 << last),
                               ('complete and one above', numbers_to(last + 1)),
                               ('bit 4', 0x11), ('bit 5', 0x21), ('bit 6', 0x41), ('bit 7', 0x81),
                               ('bit 4 alone', 0x10), ('bit 7 alone', 0x80), ('0xF0', 0xF0), ('0xFF', 0xFF))]
OUTSIDE += [('both versions %d' % value, changed(BOTH, live_version=value, gathered_version=value))
            for value in (0, 5, 31)]
OUTSIDE += [('both versions 5, the same last', changed(BOTH, gathered_version=5, live_last=2))]
OUTSIDE += [('nothing live, %s %d' % (field, value), changed(table, **{field: value}))
            for table in (ONLY_GATHERED, FRESH, FRESH._replace(half=0))
            for field in ('live_version', 'live_last') for value in (1, 3, 128, 255)]
OUTSIDE += [('nothing gathered, %s %d' % (field, value), changed(table, **{field: value}))
            for table in (ONLY_LIVE, FRESH, FRESH._replace(half=0))
            for field in ('gathered_version', 'gathered_last', 'gathered_held') for value in (1, 3, 128, 255)]
OUTSIDE += [('%s %d' % (field, value), changed(table, **{field: value}))
            for table in (BOTH, ONLY_LIVE, ONLY_GATHERED, FRESH)
            for field in ('live_present', 'gathered_present') for value in (2, 3, 128, 129, 254, 255)]


def probe(dice, name, claim):
    return Offer(section_of(dice, name, MAP, PROBE, 0, 0), claim)


def inside(dice):
    """Well formed: a section of what is gathered, one of another table, then a new version goes live."""
    for name in ORDER:
        for said, table in INSIDE:
            going_on = table.gathered if table.gathered.present else gathered(9, 2)
            number = min(n for n in range(4) if not going_on.held >> n & 1)
            offers = [Offer(section_of(dice, name, MAP, going_on.version, number, going_on.last), None),
                      probe(dice, next_name(name), None), probe(dice, name, Answer(LIVE, PROBE))]
            yield trial(dice, 'state well formed', '%s, %s' % (said, name),
                        given(dice, name, table), offers)


def outside(dice):
    """Not well formed: refused for a section of this table, of another one, and one that reads wrong."""
    for name in ORDER:
        for said, table in OUTSIDE:
            offers = [probe(dice, name, refused(2)), probe(dice, next_name(name), refused(2)),
                      Offer(bad_section(dice, name), refused(2))]
            yield trial(dice, 'state not well formed', '%s, %s' % (said, name),
                        given(dice, name, table), offers)


def field_sweep(dice):
    """Every value of every byte of a table, which is one of the five, drawn."""
    family = 'every value of a byte'
    starts = [('both', BOTH, field) for field in FIELDS]
    starts += [('both, last %d' % last, changed(BOTH, gathered_last=last), 'gathered_held')
               for last in (0, 1, 3)]
    for (said, start, field), value in itertools.product(starts, range(256)):
        name = dice.one(ORDER)
        yield trial(dice, family, '%s, %s %d, %s' % (said, field, value, name),
                    given(dice, name, changed(start, **{field: value})), [probe(dice, name, None)])
    for name, field, value in itertools.product(ORDER, FIELDS, (1, 2, 4, 31, 32, 255)):
        yield trial(dice, family, 'fresh, %s %d, %s' % (field, value, name),
                    given(dice, name, changed(FRESH, **{field: value})), [probe(dice, name, None)])


# --------------------------------------------------- stores, and 1 before 2 before 3

def every_table(dice, version, last, total=None):
    """All sections of one version of all five tables, table after table."""
    return [Offer(section_of(dice, name, MAP, version, number, last, total),
                  Answer(LIVE, version) if number == last else Answer(STORED, last - number))
            for name in ORDER for number in range(last + 1)]


def store_lengths(dice):
    for length in STORE_LENGTHS:
        good = length >= STORE_BYTES
        said = '%d bytes' % length
        offers = every_table(dice, 7, 3, PLACE_BYTES) + every_table(dice, 8, 3)
        offers += every_table(dice, 9, 3, PLACE_BYTES)
        if not good:
            offers = [offer._replace(claim=refused(1)) for offer in offers[:5]]
        yield trial(dice, 'store length', said, fresh(MAP, ENGLISH), offers, length)
        for name in ORDER:
            bad_state = given(dice, name, BOTH._replace(half=2))
            offers = [Offer(b'', refused(2 if good else 1)), probe(dice, name, refused(2 if good else 1))]
            yield trial(dice, 'store length', '%s, state not well formed, %s' % (said, name), bad_state,
                        offers, length)
            offers = [Offer(b'', refused(3 if good else 1)),
                      Offer(section_of(dice, name, MAP, 5, 0, 4), refused(12 if good else 1)),
                      Offer(section_of(dice, name, MAP, 5, 0, 1), Answer(REPEAT, 0) if good else refused(1)),
                      Offer(section_of(dice, name, MAP, 5, 0, 0), refused(13 if good else 1))]
            yield trial(dice, 'store length', '%s, %s' % (said, name), given(dice, name, BOTH), offers,
                        length)


# ------------------------------------------------------------------ 3 to 11

def map_of(section):
    return int.from_bytes(section[5:7], 'big') if len(section) >= 7 else MAP


def language_of(section):
    return section[4:7] if len(section) >= 7 else ENGLISH


def reading_clauses(dice):
    """Every clause of section.py's batch arrives at a receiver, between two sections it stores.

    By turns the section is for our map and language and perhaps for others: reading comes before both.
    """
    for at, item in enumerate(from_clauses(dice, 1)):
        name = ORDER[at % len(ORDER)]
        ours = at // len(ORDER) % 2
        map_number = map_of(item.section) if ours else MAP
        language = language_of(item.section) if ours else ENGLISH
        state = given(dice, name, FRESH._replace(half=at % 2), map_number, language)
        bad = Offer(item.section, refused(item.claim) if item.claim else None)
        offers = [bad, bad]
        if item.claim:
            offers = [Offer(section_of(dice, name, map_number, 3, n, 1, language=language), claim)
                      for n, claim in enumerate((Answer(STORED, 1), Answer(LIVE, 3)))]
            offers = [offers[0], bad, offers[1], bad]
        yield trial(dice, 'clauses of reading', '%s, into %s' % (item.detail, name), state, offers)


def long_sections(dice):
    """Lengths far above 1,024; nothing of them may come into the store."""
    for name in ORDER:
        right = section_of(dice, name, MAP, 3, 0, 1)
        for total in (1025, 4098, 4099, 32768, MOST_SECTION):
            offers = [Offer(right + bytes(total - len(right)), refused(3)), Offer(right, Answer(STORED, 1)),
                      Offer(seal(right[0], right[3:-4] + bytes(total - len(right))), refused(3))]
            yield trial(dice, 'long sections', '%d bytes, %s' % (total, name),
                        given(dice, name, FRESH), offers)


# ------------------------------------------------------------------ scripts

# (family, name, live, gathered, offers): each offer is v/n/last with its answer; * marks another map.
SCRIPTS = [
    ('C13', 'C13', NO_LIVE, NO_GATHERED,
     '5/0/1 stored 1, 5/0/1 repeat, 6/0/0 live 6, 5/1/1 stored 1, 6/0/0 repeat, 5/0/1 live 5, '
     '5/0/0 refused 13, 7/0/4 refused 12'),

    ('refusal 12', 'last above 3', live(5, 1), gathered(9, 2, 0),
     '7/0/4 refused 12, 7/4/4 refused 12, 7/0/5 refused 12, 7/1/6 refused 12, 7/0/7 refused 12, '
     '7/0/8 refused 12, 7/3/128 refused 12, 7/0/255 refused 12, 7/255/255 refused 12, 9/1/2 stored 1, '
     '9/2/2 live 9'),
    ('refusal 12', 'v live, 12 before 13', live(5, 1), NO_GATHERED,
     '5/0/4 refused 12, 5/1/255 refused 12, 5/0/1 repeat'),
    ('refusal 12', 'v gathered, 12 before 13', NO_LIVE, gathered(9, 2, 0),
     '9/0/4 refused 12, 9/1/4 refused 12, 9/4/6 refused 12, 9/1/2 stored 1, 9/2/2 live 9'),
    ('refusal 12', 'when nothing is there', NO_LIVE, NO_GATHERED,
     '0/0/4 refused 12, 0/0/3 stored 3, 0/1/4 refused 12'),

    ('refusal 13', 'against live', live(5, 2), NO_GATHERED,
     '5/0/0 refused 13, 5/0/1 refused 13, 5/1/1 refused 13, 5/0/3 refused 13, 5/3/3 refused 13, '
     '5/0/2 repeat'),
    ('refusal 13', 'against live while another is gathered', live(5, 1), gathered(9, 2, 0),
     '5/0/2 refused 13, 9/1/2 stored 1, 5/0/0 refused 13, 9/2/2 live 9, 9/0/1 refused 13, '
     '5/0/2 stored 2'),
    ('refusal 13', 'against gathered', NO_LIVE, gathered(9, 2, 1),
     '9/0/0 refused 13, 9/0/1 refused 13, 9/1/1 refused 13, 9/0/3 refused 13, 9/3/3 refused 13, '
     '9/0/2 stored 1, 9/2/3 refused 13, 9/2/2 live 9, 9/2/3 refused 13'),
    ('refusal 13', 'against gathered, live has that last', live(5, 1), gathered(9, 2, 1),
     '9/0/1 refused 13, 9/1/1 refused 13, 9/0/2 stored 1, 5/1/1 repeat'),
    ('refusal 13', 'against live, gathered has that last', live(5, 1), gathered(9, 2, 1),
     '5/0/2 refused 13, 5/2/2 refused 13'),
    ('refusal 13', 'forgotten once dropped', NO_LIVE, gathered(9, 2, 0),
     '10/0/1 stored 1, 9/0/1 stored 1, 9/1/1 live 9'),
    ('refusal 13', 'forgotten once no longer live', live(5, 1), NO_GATHERED,
     '6/0/0 live 6, 5/0/0 live 5, 6/0/1 stored 1, 6/0/0 refused 13, 6/1/1 live 6'),

    ('repeat', 'of live', live(5, 3), NO_GATHERED,
     '5/0/3 repeat, 5/1/3 repeat, 5/2/3 repeat, 5/3/3 repeat, 6/0/1 stored 1, 5/3/3 repeat, '
     '6/1/1 live 6'),
    ('repeat', 'of held', NO_LIVE, gathered(9, 3, 1, 3),
     '9/1/3 repeat, 9/3/3 repeat, 9/0/3 stored 1, 9/0/3 repeat, 9/2/3 live 9, 9/2/3 repeat, '
     '9/0/3 repeat'),
    ('repeat', 'of live while another version is gathered', live(5, 1), gathered(9, 2, 0, 2),
     '5/0/1 repeat, 5/1/1 repeat, 9/0/2 repeat, 5/0/1 repeat, 9/1/2 live 9, 5/0/1 stored 1'),
    ('repeat', 'n held, of another version', live(5, 1), gathered(9, 2, 0),
     '10/0/2 stored 2, 9/0/2 stored 2'),
    ('repeat', 'of live 0/0', live(0, 0), NO_GATHERED,
     '0/0/0 repeat, 1/0/0 live 1, 0/0/0 live 0, 0/0/0 repeat'),

    ('stored', 'missing 1', NO_LIVE, NO_GATHERED, '1/0/1 stored 1, 1/1/1 live 1'),
    ('stored', 'missing 2, 1', NO_LIVE, NO_GATHERED, '1/2/2 stored 2, 1/0/2 stored 1, 1/1/2 live 1'),
    ('stored', 'missing 3, 2, 1', NO_LIVE, NO_GATHERED,
     '1/3/3 stored 3, 1/0/3 stored 2, 1/2/3 stored 1, 1/1/3 live 1'),
    ('stored', 'missing 3, 2, 1 beside live', live(5, 0), NO_GATHERED,
     '1/0/3 stored 3, 1/2/3 stored 2, 1/1/3 stored 1, 1/3/3 live 1'),

    ('live', 'last 0 over live', live(5, 3), NO_GATHERED, '6/0/0 live 6, 7/0/0 live 7, 7/0/0 repeat'),
    ('live', 'last 0 over gathered', NO_LIVE, gathered(9, 3, 0, 1, 2), '6/0/0 live 6, 9/3/3 stored 3'),
    ('live', 'last 0 over both', live(5, 3), gathered(9, 3, 0, 1, 2),
     '6/0/0 live 6, 9/3/3 stored 3, 5/0/0 live 5'),
    ('live', 'last 1, given begun', live(5, 3), gathered(9, 1, 0),
     '9/1/1 live 9, 9/0/1 repeat, 5/0/3 stored 3'),
    ('live', 'last 2, given begun', live(5, 0), gathered(9, 2, 0, 1), '9/2/2 live 9, 5/0/0 live 5'),
    ('live', 'last 3, given begun', live(5, 2), gathered(9, 3, 1, 2, 3), '9/0/3 live 9, 9/3/3 repeat'),
    ('live', 'each last in turn', NO_LIVE, NO_GATHERED,
     '1/0/0 live 1, 2/0/1 stored 1, 2/1/1 live 2, 3/2/2 stored 2, 3/1/2 stored 1, 3/0/2 live 3, '
     '4/0/3 stored 3, 4/3/3 stored 2, 4/1/3 stored 1, 4/2/3 live 4, 5/0/0 live 5'),

    ('versions', '31 to 0', live(31, 1), NO_GATHERED,
     '0/0/1 stored 1, 31/0/1 repeat, 0/1/1 live 0, 31/0/1 stored 1, 31/1/1 live 31, 0/0/0 live 0'),
    ('versions', '31 gathered, then 0', live(30, 0), gathered(31, 1, 0),
     '0/0/1 stored 1, 31/1/1 stored 1, 0/1/1 stored 1, 0/0/1 live 0, 30/0/0 live 30'),
    ('versions', '0 when nothing is there', NO_LIVE, NO_GATHERED,
     '0/0/1 stored 1, 0/0/1 repeat, 0/0/0 refused 13, 0/1/1 live 0, 0/1/1 repeat'),
    ('versions', '0 of one section when nothing is there', NO_LIVE, NO_GATHERED,
     '0/0/0 live 0, 0/0/1 refused 13'),
    ('versions', '0 when nothing is live', NO_LIVE, gathered(9, 2, 0), '0/0/0 live 0, 9/1/2 stored 2'),
    ('versions', '0 when nothing is gathered', live(9, 2), NO_GATHERED,
     '0/1/3 stored 3, 0/0/3 stored 2, 9/0/2 repeat'),
    ('versions', 'older ones', live(20, 1), gathered(21, 1, 0),
     '19/0/1 stored 1, 19/1/1 live 19, 18/0/0 live 18, 20/0/0 live 20, 4/0/0 live 4, 20/0/1 stored 1, '
     '20/1/1 live 20'),
    ('versions', 'one bit away', live(5, 0), gathered(9, 1, 0),
     '21/0/0 live 21, 5/0/0 live 5, 13/0/0 live 13, 5/0/0 live 5, 4/0/0 live 4, 5/0/1 stored 1, '
     '7/0/0 live 7'),

    ('dropping', 'by a newer one', live(5, 1), gathered(9, 3, 0, 1, 2),
     '10/3/3 stored 3, 9/3/3 stored 3, 9/0/3 stored 2, 10/0/3 stored 3'),
    ('dropping', 'by an older one', live(5, 1), gathered(9, 3, 0, 1, 2),
     '8/0/1 stored 1, 8/1/1 live 8, 9/3/3 stored 3, 5/0/1 stored 1, 5/1/1 live 5'),
    ('dropping', 'not by refused ones or repeats', live(5, 1), gathered(9, 3, 0, 1, 2),
     '10/0/4 refused 12, 5/0/2 refused 13, 5/1/1 repeat, 9/0/2 refused 13, 9/1/3 repeat, '
     '9/3/3 live 9'),
    ('dropping', 'back and forth', NO_LIVE, NO_GATHERED,
     '1/0/1 stored 1, 2/1/1 stored 1, 1/1/1 stored 1, 2/0/1 stored 1, 1/0/1 stored 1, 1/1/1 live 1, '
     '2/1/1 stored 1'),
]

# The same for the tables of MAPPED.
MAP_SCRIPTS = [
    ('other map', 'plain', NO_LIVE, NO_GATHERED,
     '5/0/0* other map, 5/0/0 live 5, 5/0/0* other map, 5/0/0 repeat'),
    ('other map', 'last above 3', live(5, 1), gathered(9, 2, 0),
     '7/0/4* other map, 7/0/255* other map, 5/0/4* other map, 9/0/4* other map, 7/0/4 refused 12'),
    ('other map', 'a version that is gathered', live(5, 1), gathered(9, 2, 0),
     '9/1/2* other map, 9/0/2* other map, 9/1/3* other map, 9/1/2 stored 1, 9/2/2* other map, '
     '9/2/2 live 9'),
    ('other map', 'a version that is live', live(5, 1), gathered(9, 2, 0),
     '5/0/1* other map, 5/0/2* other map, 5/0/1 repeat, 5/0/2 refused 13'),
    ('other map', 'drops nothing', live(5, 1), gathered(9, 2, 0, 1),
     '10/0/0* other map, 4/0/1* other map, 9/2/2 live 9'),
]


def answer_of(words):
    """'stored 1', 'other map' and the like."""
    kind, _, value = words.rpartition(' ')
    return Answer(kind, int(value)) if value.isdigit() else Answer(words, 0)


def script_offers(dice, name, script, map_number):
    for line in script.split(', '):
        what, words = line.split(' ', 1)
        number, language = another_owner(dice, map_number) if what.endswith('*') else (map_number, ENGLISH)
        version, n, last = map(int, what.rstrip('*').split('/'))
        yield Offer(section_of(dice, name, number, version, n, last, language=language), answer_of(words))


def scripts(dice):
    """Every script for every table and with either half set."""
    for tables, lines in ((ORDER, SCRIPTS), (MAPPED, MAP_SCRIPTS)):
        for name in tables:
            for half in (0, 1):
                for family, said, lives, gathering, script in lines:
                    state = given(dice, name, Table(lives, gathering, half))
                    yield trial(dice, family, '%s, %s, half %d' % (said, name, half), state,
                                list(script_offers(dice, name, script, MAP)))


def map_numbers(dice):
    """Every bit of the map number, its bytes turned round, and the borders; 0xC2 and 0xC3 have none."""
    pairs = [(MAP, MAP ^ 1 << bit) for bit in range(16)]
    pairs += [(MAP, 0x3412), (0, 0xFFFF), (0xFFFF, 0), (0, 1), (0, 0x100), (0xFF, 0xFF00), (0xFFFF, 0xFFFE)]
    for ours, other in pairs:
        for name in (VCM, DCM):
            offers = [Offer(section_of(dice, name, other, 5, 0, 0), answer_of('other map')),
                      Offer(section_of(dice, name, ours, 5, 0, 0), Answer(LIVE, 5)),
                      Offer(section_of(dice, MMS, ours, 5, 0, 0), Answer(LIVE, 5)),
                      Offer(section_of(dice, NTT, other, 5, 0, 0), Answer(LIVE, 5))]
            yield trial(dice, 'other map', '0x%04X, ours 0x%04X, %s' % (other, ours, name),
                        fresh(ours, ENGLISH), offers)


def languages(dice):
    """Every bit of the three bytes, other cases and orders, and the wild card of document 003: all are others."""
    pairs = [(ENGLISH, bytes(byte ^ (1 << bit if at == place else 0) for at, byte in enumerate(ENGLISH)))
             for place in range(3) for bit in range(8)]
    pairs += [(ENGLISH, other) for other in OTHER_LANGUAGES] + [(other, ENGLISH) for other in OTHER_LANGUAGES]
    for ours, other in pairs:
        names = [Offer(section_of(dice, NTT, MAP, 5, 0, 0, language=language), claim) for language, claim
                 in ((other, answer_of('other map')), (ours, Answer(LIVE, 5)), (other, answer_of('other map')))]
        # The language is nothing to the other tables.
        others = [Offer(section_of(dice, name, MAP, 5, 0, 0, language=other), Answer(LIVE, 5)) for name in (MMS, VCM)]
        yield trial(dice, 'other map', 'language %s, ours %s' % (other.hex(), ours.hex()), fresh(MAP, ours),
                    names + others)


# ---------------------------------------------------- orders, places, small scope

def in_order(dice, name, version, numbers, twice=False):
    """These numbers of one version, each perhaps offered twice; the last one makes it live."""
    last = len(numbers) - 1
    for at, number in enumerate(numbers):
        claim = Answer(LIVE, version) if at == last else Answer(STORED, last - at)
        yield Offer(section_of(dice, name, MAP, version, number, last), claim)
        if twice:
            yield Offer(section_of(dice, name, MAP, version, number, last), Answer(REPEAT, 0))


def orders(dice):
    """Every order of 0 to last, where nothing is live with either half, and beside live and gathered."""
    beside = Table(live(5, 1), gathered(9, 3, 0, 1), 0)
    starts = (('nothing live, half 0', FRESH._replace(half=0)), ('nothing live, half 1', FRESH),
              ('beside live', beside))
    for last in range(MOST_LAST + 1):
        for numbers in itertools.permutations(range(last + 1)):
            for name, (said, table) in itertools.product(ORDER, starts):
                yield trial(dice, 'orders', '%s, %s, %s' % (' '.join(map(str, numbers)), name, said),
                            given(dice, name, table), list(in_order(dice, name, 17, numbers, dice.below(2))))


def every_version(dice):
    """All 32 versions, one after the other, up and down, of one and of two sections."""
    for name in ORDER:
        for said, versions in (('up', range(32)), ('down', range(31, -1, -1))):
            for last in (0, 1):
                numbers = shuffled(dice, range(last + 1))
                offers = [offer for version in versions for offer in in_order(dice, name, version, numbers)]
                yield trial(dice, 'versions', 'all %s, last %d, %s' % (said, last, name), fresh(MAP, ENGLISH),
                            offers)


def interleaved(dice):
    """All five tables with the same version, their sections mixed, version after version."""
    for at in range(24):
        last = at % 4
        offers = []
        for version in (4, 3, 31):
            whole = [(name, number) for number in range(last + 1) for name in ORDER]
            for name, number in shuffled(dice, whole) if at >= 8 else whole:
                offers.append(Offer(section_of(dice, name, MAP, version, number, last), None))
        state = fresh(MAP, ENGLISH) if at % 2 else any_state(dice)
        yield trial(dice, 'five tables', 'mixed, last %d' % last, state, offers)


def sizes(dice):
    """Long ones into every place, short ones over them, and the other way round."""
    for name in ORDER:
        for half in (0, 1):
            for length in (STORE_BYTES, STORE_BYTES + 1, LONGER):
                offers = []
                for version, total in enumerate((1024, 1023, SHORTEST[name], SHORTEST[name] + 1, 1024, 500)):
                    offers += [Offer(section_of(dice, name, MAP, version, number, 3, total), None)
                               for number in shuffled(dice, range(4))]
                    offers.append(Offer(section_of(dice, name, MAP, version, 0, 3, 1024), Answer(REPEAT, 0)))
                yield trial(dice, 'sizes', '%s, half %d, store of %d' % (name, half, length),
                            given(dice, name, FRESH._replace(half=half)), offers, length)


SCOPE_LIVES = [NO_LIVE] + [live(5, last) for last in range(4)]
SCOPE_GATHERED = [NO_GATHERED] + [Gathered(1, 9, last, held)
                                  for last in (1, 2, 3) for held in range(1, numbers_to(last))]
SCOPE_OFFERS = [(version, number, last) for version in (5, 9, 0)
                for last in range(MOST_LAST + 1) for number in range(last + 1)]
SCOPE_OFFERS += [(version, 0, MOST_LAST + 1) for version in (5, 9, 0)]


def small_scope(dice):
    """Each live and gathered of two versions with each offer of these and a third.

    Tables and halves take turns.
    """
    made = {}
    turn = dice.below(2 * len(ORDER))
    for lives, gathering, offer in itertools.product(SCOPE_LIVES, SCOPE_GATHERED, SCOPE_OFFERS):
        turn += 1
        name, half = ORDER[turn % len(ORDER)], turn // len(ORDER) % 2
        if (name, offer) not in made:
            made[name, offer] = section_of(dice, name, MAP, *offer)
        said = 'live %s, gathered %s, %s gets %d/%d/%d' % (
            '%d/%d' % lives[1:] if lives.present else 'none',
            '%d/%d held 0x%X' % gathering[1:] if gathering.present else 'none', name, *offer)
        yield trial(dice, 'small scope', said, given(dice, name, Table(lives, gathering, half)),
                    [Offer(made[name, offer], None)])


# ------------------------------------------------------------------ random ones

def near_section(dice, state):
    """A section that may meet what is live or gathered."""
    name = dice.one(ORDER)
    table = state.tables[ORDER.index(name)]
    if dice.chance(12):
        return bad_section(dice, name)
    version = dice.one((table.live.version, table.gathered.version, table.gathered.version, dice.below(32)))
    last = dice.one((table.live.last, table.gathered.last, table.gathered.last, dice.below(4)))
    last = dice.between(4, 255) if dice.chance(12) else last
    map_number, language = state.map_number, state.language
    if dice.chance(12):
        map_number, language = another_owner(dice, map_number, language)
    total = dice.between(SHORTEST[name], PLACE_BYTES) if dice.chance(8) else None
    return section_of(dice, name, map_number, version, dice.below(last + 1), last, total, language)


def near_sections(dice, state):
    return [Offer(near_section(dice, state), None) for _ in range(dice.between(1, 8))]


def random_state(dice):
    return any_state(dice, dice.below(0x10000), any_language(dice))


def random_length(dice):
    """Of a store: mostly just enough, else longer, or near what five or four tables take."""
    way = dice.below(16)
    if way == 0:
        return dice.one((STORE_BYTES, FOUR_TABLES)) + dice.between(-2, 2)
    return dice.between(STORE_BYTES, MOST_STORE) if way < 3 else STORE_BYTES


def random_given(dice):
    state = random_state(dice)
    return trial(dice, 'random state', 'well formed', state, near_sections(dice, state), random_length(dice))


def random_touched(dice):
    """A well-formed state with one byte changed; it may stay well formed."""
    state = random_state(dice)
    name, field = dice.one(ORDER), dice.one(FIELDS)
    value = dice.below(256) if dice.chance(3) else dice.below(5)
    table = changed(state.tables[ORDER.index(name)], **{field: value})
    return trial(dice, 'random state', 'touched, %s %s %d' % (name, field, value),
                 with_table(state, name, table), near_sections(dice, state))


class Sender:
    """What a plant sends of one table: a version, its last number, its sections again and again."""

    def __init__(self, dice, name, map_number, language=ENGLISH):
        self.dice, self.name, self.map_number, self.language = dice, name, map_number, language
        self.change(dice.below(32))

    def change(self, version):
        self.version, self.last, self.sections, self.next = version, self.dice.below(4), {}, 0

    def make(self, number, last, version=None, owner=None):
        """owner is the map number and language of another plant, if it is one."""
        map_number, language = (self.map_number, self.language) if owner is None else owner
        total = self.dice.between(SHORTEST[self.name], PLACE_BYTES) if self.dice.chance(30) else None
        return section_of(self.dice, self.name, map_number, self.version if version is None else version, number,
                          last, total, language)

    def send(self):
        """The next section of the version; the same bytes each time."""
        number = self.next
        self.next = (number + 1) % (self.last + 1)
        if number not in self.sections:
            self.sections[number] = self.make(number, self.last)
        return self.sections[number]


def lost(dice, sender):
    """The next one is never offered, so the one after it comes."""
    sender.send()
    return sender.send()


def other_bytes(dice, sender):
    return sender.make(dice.below(sender.last + 1), sender.last)


def new_version(dice, sender):
    sender.change((sender.version + dice.one((1, 1, 1, 31, dice.below(32)))) % 32)
    return sender.send()


def stray_version(dice, sender):
    """One section of another version, then the plant goes on as before."""
    last = dice.below(4)
    return sender.make(dice.below(last + 1), last, (sender.version + dice.between(1, 31)) % 32)


def new_last(dice, sender):
    last = dice.below(4)
    return sender.make(dice.below(last + 1), last)


def last_above_3(dice, sender):
    last = dice.between(4, 255)
    return sender.make(dice.below(last + 1), last)


def for_another_map(dice, sender):
    last = dice.one((sender.last, sender.last, dice.below(256)))
    return sender.make(dice.below(last + 1), last, owner=another_owner(dice, sender.map_number, sender.language))


def refused_section(dice, sender):
    return bad_section(dice, sender.name)


NOISE = (lost, other_bytes, new_version, stray_version, new_last, last_above_3, for_another_map,
         refused_section)


def random_run(dice):
    """A long run of a plausible plant with more or less noise, at a fresh receiver or a given one."""
    map_number, language = dice.below(0x10000), any_language(dice)
    state = any_state(dice, map_number, language) if dice.chance(3) else fresh(map_number, language)
    senders = [Sender(dice, name, map_number, language) for name in ORDER]
    quiet = dice.one((2, 3, 5, 12))
    offers = []
    for _ in range(dice.between(30, 200)):
        sender = dice.one(senders)
        section = dice.one(NOISE)(dice, sender) if dice.chance(quiet) else sender.send()
        offers.append(Offer(section, None))
    return trial(dice, 'long run', 'noise in one of %d' % quiet, state, offers,
                 dice.one((STORE_BYTES, LONGER)))


def random_trials(dice, count):
    """One long run in eight."""
    for at in range(count):
        way = random_run if at % 8 == 0 else random_touched if at % 8 < 3 else random_given
        yield way(dice)


DIRECTED = (scripts, orders, every_version, interleaved, sizes, store_lengths, map_numbers, languages, inside, outside,
            field_sweep, reading_clauses, long_sections, small_scope)


def batch(seed, count):
    """All directed trials, then so many random ones."""
    dice = Dice(seed)
    trials = [each for make_trials in DIRECTED for each in make_trials(dice)]
    trials.extend(random_trials(dice, count))
    return trials
