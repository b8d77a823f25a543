"""Mofrindi: document 01, "From number to tuner", a second implementation.

Refusals 1, 2 and 14 to 21 are given here.  Sections are read by section.py, the state and the layout of the
store are those of receiver.py.  Neither state nor store is ever changed.

Readings
--------
Places where the document leaves more than one reading, and the one taken here:

 1. "A place of a live table" is each place 0 to last of its live half.  What it holds is its first 3 + L
    bytes; a length that runs past the place doesn't read right, whatever stands in the next place.
 2. 0xC2 has no map number, so nothing of the map is compared for CDS and MMS.
 3. 16 goes before 17 for all four tables: a broken place refuses also those channels that don't need it.
    Names (request 2026-01) are none of the four: live or not, broken or not, they don't matter here.
 4. A channel must be defined (17) also if it is an application channel.
 5. "The first match ends the search": a first carrier outside the limits gives 20 and a first range that isn't
    range-defined gives 17, although a later one would do.
 6. The application bit alone makes an application channel; transport, carrier and mode reference of such a
    record are not looked at.  Its number is the 16 bits that are the source of other channels.
 7. Only a digital channel has a mode; 21 comes behind 19 and 20.
"""

from collections import namedtuple

from program.receiver import ORDER, PLACE_BYTES, STORE_BYTES, is_ours, place_start, read, well_formed
from program.section import CDS, DCM, MMS, VCM, Refusal, carrier_khz, section_length

Digital = namedtuple('Digital', 'hidden path khz program mode')
ModeRecord = namedtuple('ModeRecord', 'system inner split format symbols')
Analogue = namedtuple('Analogue', 'hidden path khz standard scrambled')
Application = namedtuple('Application', 'hidden path number')

# The live sections of each table, the lowest first, each as the list of its records.
Tables = namedtuple('Tables', 'cds mms vcm dcm')
# given is refusal 1 or 2, or None; tables are Tables, or refusal 15 or 16.
Checked = namedtuple('Checked', 'given tables')

NEEDED = (CDS, MMS, VCM, DCM)
MOST_CHANNEL = 4095
LEAST_KHZ = 54000
MOST_KHZ = 1002000


# ---------------------------------------------------------- checks 1, 2, 15, 16

def given_refusal(state, store):
    if len(store) < STORE_BYTES:
        return Refusal(1)
    if not well_formed(state):
        return Refusal(2)
    return None


def held_bytes(store, name, half, number):
    """The first 3 + L bytes of a place, and never more than the place."""
    start = place_start(name, half, number)
    place = bytes(store[start:start + PLACE_BYTES])
    return place[:3 + section_length(place)]


def table_of(state, name):
    return state.tables[ORDER.index(name)]


def is_as_live(content, name, state, live, number):
    """"as that table, map, version, number and last"; for names the language is what the map is for others."""
    return (content.table == name
            and is_ours(state, content)
            and content.version == live.version
            and content.number == number
            and content.last == live.last)


def live_sections(state, store, name):
    """The records of sections 0 to last, or None where a place no longer reads right."""
    table = table_of(state, name)
    sections = []
    for number in range(table.live.last + 1):
        content = read(held_bytes(store, name, table.half, number))
        if isinstance(content, Refusal):
            return None
        if not is_as_live(content, name, state, table.live, number):
            return None
        sections.append(content.records)
    return sections


def live_tables(state, store):
    if any(table_of(state, name).live.present == 0 for name in NEEDED):
        return Refusal(15)
    found = [live_sections(state, store, name) for name in NEEDED]
    if any(sections is None for sections in found):
        return Refusal(16)
    return Tables(*found)


def checked(state, store):
    """All that doesn't go by the channel number, done once."""
    refusal = given_refusal(state, store)
    if refusal is not None:
        return Checked(refusal, None)
    return Checked(None, live_tables(state, store))


# ------------------------------------------------------------------ the searches

def first_match(sections, matches):
    """The lowest section first and, within it, the first record."""
    for records in sections:
        for record in records:
            if matches(record):
                return record
    return None


def is_defined(tables, number):
    covering = first_match(tables.dcm, lambda record: record.first <= number <= record.last)
    return covering is not None and covering.defined == 1


def channel_record(tables, number):
    return first_match(tables.vcm, lambda record: record.number == number)


def carriers_with(tables, reference):
    return first_match(tables.cds, lambda record: record.index <= reference < record.index + record.count)


def mode_with(tables, reference):
    return first_match(tables.mms, lambda record: record.index == reference)


# ------------------------------------------------------------------- 17 to 21

def frequency(tables, reference):
    """kHz, or refusal 19 or 20."""
    record = carriers_with(tables, reference) if reference != 0 else None
    if record is None:
        return Refusal(19)
    khz = carrier_khz(record, reference - record.index)
    if khz < LEAST_KHZ or khz > MOST_KHZ:
        return Refusal(20)
    return khz


def mode_record(tables, reference):
    """The mode, or refusal 21."""
    mode = mode_with(tables, reference) if reference != 0 else None
    if mode is None:
        return Refusal(21)
    return ModeRecord(mode.system, mode.inner, mode.split, mode.format, mode.symbols)


def tuned(tables, channel):
    """A channel that is no application: digital or analogue."""
    khz = frequency(tables, channel.carrier)
    if isinstance(khz, Refusal):
        return khz
    if channel.transport == 1:
        return Analogue(channel.type, channel.path, khz, channel.standard, channel.scrambled)
    mode = mode_record(tables, channel.mode)
    if isinstance(mode, Refusal):
        return mode
    return Digital(channel.type, channel.path, khz, channel.program, mode)


def channel_answer(tables, number):
    if not is_defined(tables, number):
        return Refusal(17)
    channel = channel_record(tables, number)
    if channel is None:
        return Refusal(18)
    if channel.application == 1:
        return Application(channel.type, channel.path, channel.source)
    return tuned(tables, channel)


# --------------------------------------------------------------- the whole question

def ask(check, number):
    """The answer for a channel number, of what checked() found; 14 stands between 2 and 15."""
    if check.given is not None:
        return check.given
    if number > MOST_CHANNEL:
        return Refusal(14)
    if isinstance(check.tables, Refusal):
        return check.tables
    return channel_answer(check.tables, number)


def tune(state, store, number):
    """Digital, Analogue, Application or Refusal; for any state, store and number 0 to 65535."""
    return ask(checked(state, store), number)
