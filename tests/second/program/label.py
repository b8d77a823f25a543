"""Mofrindi: request 2026-01, the label of a channel, a second implementation.

The question is answered with a refusal (1, 2 and 14 to 18), with where the name stands in the store, or with the
word that the lent fallback is the label.  Neither state nor store is ever changed.

Readings
--------
Places where the request leaves more than one reading, and the one taken here:

 1. All that tuning needs is needed here too: 15 for the four tables, 16 for them and for names that are live.
    Names that are only gathered don't matter.
 2. 19 to 21 never come: a channel whose carrier or mode is missing has a label.
 3. The flag and the number are those of the channel's first record.  A source number 0 is a number like others.
 4. All bytes of the name are the label, its modes, lengths and effectors too.  The fallback isn't looked at.
 5. Where the question refuses, the label shown has no bytes.
"""

from collections import namedtuple

from program import tuning
from program.receiver import place_start
from program.section import NTT, Refusal

Named = namedtuple('Named', 'start size')       # where in the store the name begins, and how many bytes it has
Fallback = namedtuple('Fallback', '')
# tuner is what tuning.checked() found; names are the live sections, the lowest first, each as (where it begins in
# the store, its records), none if the table isn't live, or refusal 16.
Checked = namedtuple('Checked', 'tuner names')


# ------------------------------------------------------------------------ checks

def live_names(state, store):
    table = tuning.table_of(state, NTT)
    if table.live.present == 0:
        return []
    sections = tuning.live_sections(state, store, NTT)
    if sections is None:
        return Refusal(16)
    return [(place_start(NTT, table.half, number), records) for number, records in enumerate(sections)]


def checked(state, store, tuner=None):
    """All that doesn't go by the channel number, done once; tuner where it is there already."""
    tuner = tuning.checked(state, store) if tuner is None else tuner
    return Checked(tuner, [] if tuner.given is not None else live_names(state, store))


# ------------------------------------------------------------------------ the search

def first_name(names, application, number):
    """The lowest section first and, within it, the first record."""
    for start, records in names:
        for record in records:
            if (record.application, record.number) == (application, number):
                return Named(start + record.start, record.size)
    return Fallback()


def channel_answer(tables, names, number):
    if not tuning.is_defined(tables, number):
        return Refusal(17)
    channel = tuning.channel_record(tables, number)
    if channel is None:
        return Refusal(18)
    return first_name(names, channel.application, channel.source)


# --------------------------------------------------------------- the whole question

def ask(check, number):
    """The answer for a channel number, of what checked() found; the order is that of tuning."""
    tuner = check.tuner
    if tuner.given is not None:
        return tuner.given
    if number > tuning.MOST_CHANNEL:
        return Refusal(14)
    for found in (tuner.tables, check.names):
        if isinstance(found, Refusal):
            return found
    return channel_answer(tuner.tables, check.names, number)


def question(state, store, number):
    """Refusal, Named or Fallback; for any state, store and number 0 to 65535."""
    return ask(checked(state, store), number)


def shown(answer, store, fallback):
    """The bytes of the label that an answer stands for."""
    if isinstance(answer, Named):
        return bytes(store[answer.start:answer.start + answer.size])
    return bytes(fallback) if isinstance(answer, Fallback) else b''
