"""Mofrindi: the receiver of document 01, "Holding and going live", a second implementation.

Refusals 1, 2, 12 and 13 are given here, 3 to 11 by the reader in section.py.  A state is never changed:
offer() answers with the one that follows it.  The store is lent and changed where it stands.

Names (request 2026-01) are a fifth table behind the others, for the one language that the box was started with.
Its three bytes are compared as they are: "ENG" and the wild card FF FF FF of document 003 are other languages.
Whatever they are, a state isn't less well formed by them.
"""

from collections import namedtuple
from functools import lru_cache

from program import section as reading

# present is 1 or 0; a part that isn't there has all its fields 0.  Bit n of held: section n is held.
Live = namedtuple('Live', 'present version last')
Gathered = namedtuple('Gathered', 'present version last held')
# half is the half that is live; gathering uses the other one.
Table = namedtuple('Table', 'live gathered half')
# tables are in the order of ORDER; language has three bytes.
State = namedtuple('State', 'map_number tables language')
# value: the number of the refusal, how many sections are missing, or the version that went live; else 0.
Answer = namedtuple('Answer', 'kind value')

REFUSED, OTHER_MAP, REPEAT, STORED, LIVE = 'refused', 'other map', 'repeat', 'stored', 'live'

ORDER = (reading.CDS, reading.MMS, reading.VCM, reading.DCM, reading.NTT)
HALVES = 2
SECTIONS = 4            # places of a half, so the last number is at most 3
PLACE_BYTES = 1024
STORE_BYTES = len(ORDER) * HALVES * SECTIONS * PLACE_BYTES
MOST_LAST = SECTIONS - 1
MOST_VERSION = 31

NO_LIVE = Live(0, 0, 0)
NO_GATHERED = Gathered(0, 0, 0, 0)
FRESH = Table(NO_LIVE, NO_GATHERED, 1)

# Reading goes by the bytes alone, and a plant sends the same bytes again and again.
read = lru_cache(maxsize=4096)(reading.read)


def fresh(map_number, language):
    """Nothing live, nothing gathered, and the half set to 1."""
    return State(map_number, (FRESH,) * len(ORDER), language)


# ------------------------------------------------------------------ refusal 2

def numbers_to(last):
    """Sections 0 to last, as held has them."""
    return (1 << last + 1) - 1


def in_limits(part):
    return part.version <= MOST_VERSION and part.last <= MOST_LAST


def live_well_formed(live):
    if live.present == 0:
        return live == NO_LIVE
    return live.present == 1 and in_limits(live)


def gathered_well_formed(gathered):
    if gathered.present == 0:
        return gathered == NO_GATHERED
    if gathered.present != 1 or not in_limits(gathered):
        return False
    wanted = numbers_to(gathered.last)
    empty = gathered.held == 0
    complete = gathered.held == wanted
    beyond = gathered.held & ~wanted != 0
    return not (empty or complete or beyond)


def same_version(live, gathered):
    return live.present == 1 and gathered.present == 1 and live.version == gathered.version


def table_well_formed(table):
    return (table.half < HALVES
            and live_well_formed(table.live)
            and gathered_well_formed(table.gathered)
            and not same_version(table.live, table.gathered))


def well_formed(state):
    """All five tables, whichever of them a section is for."""
    return all(table_well_formed(table) for table in state.tables)


# ------------------------------------------------------------------ the store

def place_start(name, half, number):
    return ((ORDER.index(name) * HALVES + half) * SECTIONS + number) * PLACE_BYTES


def put(store, name, half, number, section):
    """The section's bytes at the front of its place; what stands behind them stays."""
    start = place_start(name, half, number)
    store[start:start + len(section)] = section


# ------------------------------------------------------ the steps of document 01

def has(part, version):
    """The version is live, or is being gathered."""
    return part.present == 1 and part.version == version


def other_last(part, content):
    return has(part, content.version) and part.last != content.last


def is_repeat(table, content):
    held = has(table.gathered, content.version) and table.gathered.held >> content.number & 1
    return has(table.live, content.version) or bool(held)


def join(table, content):
    """Step 5: what is gathered once the section has joined or begun it."""
    before = table.gathered.held if has(table.gathered, content.version) else 0
    return Gathered(1, content.version, content.last, before | 1 << content.number)


def settle(table, gathered):
    """Step 6: the answer, and the table with this gathered."""
    if gathered.held == numbers_to(gathered.last):
        live = Live(1, gathered.version, gathered.last)
        return Answer(LIVE, gathered.version), Table(live, NO_GATHERED, 1 - table.half)
    missing = gathered.last + 1 - bin(gathered.held).count('1')
    return Answer(STORED, missing), table._replace(gathered=gathered)


def is_ours(state, content):
    """Of our map, if it is of any, and in our language, if it is in any."""
    return content.map_number in (None, state.map_number) and content.language in (None, state.language)


def unheld_answer(state, table, content):
    """Steps 1 to 4: the answer to a section that isn't put into the store, or None."""
    if not is_ours(state, content):
        return Answer(OTHER_MAP, 0)
    if content.last > MOST_LAST:
        return Answer(REFUSED, 12)
    if other_last(table.live, content) or other_last(table.gathered, content):
        return Answer(REFUSED, 13)
    if is_repeat(table, content):
        return Answer(REPEAT, 0)
    return None


def hold(state, store, section, content):
    """A section that reads right, offered to a good state and store."""
    at = ORDER.index(content.table)
    table = state.tables[at]
    answer = unheld_answer(state, table, content)
    if answer is not None:
        return answer, state
    put(store, content.table, 1 - table.half, content.number, section)
    answer, table = settle(table, join(table, content))
    return answer, state._replace(tables=state.tables[:at] + (table,) + state.tables[at + 1:])


def offer(state, store, section):
    """The answer and the state that follows; store is a bytearray of any length."""
    if len(store) < STORE_BYTES:
        return Answer(REFUSED, 1), state
    if not well_formed(state):
        return Answer(REFUSED, 2), state
    content = read(bytes(section))
    if isinstance(content, reading.Refusal):
        return Answer(REFUSED, content.number), state
    return hold(state, store, section, content)
