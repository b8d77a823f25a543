"""Mofrindi: the program `lineup` of document 01, "The C side and the printed line-up", a second one.

python3 tests/second/program/lineup.py < CAPTURE

Sections are gathered by receiver.py in a fresh box and channels are tuned by tuning.py; here the input is cut
and the answers are printed.

Readings
--------
Places where the document leaves more than one reading, and the one taken here:

 1. The two bytes of map number have the higher one first, as all numbers of a section do.
 2. An unfinished last section may have only one or two bytes, so that its L isn't known.  It is offered and
    counted like any other; at the very end of the input nothing more is offered.
 3. `refused` counts the answers that have a number of refusal.  *Other map* and *repeat* have none, so they
    count as sections and not as refused.
 4. "with `kind=application` only `application=`" says what stands after path: the line has hidden and path,
    which an application channel answers too.
 5. While not all four tables that tuning needs are live every channel is refused (15), so there are no channel
    lines.  Names (request 2026-01) show only in `ntt=`.
"""

import os
import sys
from collections import namedtuple

sys.dont_write_bytecode = True
sys.path.insert(0, os.path.dirname(os.path.dirname(os.path.abspath(__file__))))

from program import receiver, tuning
from program.section import Refusal, section_length, word

MAP_BYTES = 2
LENGTH_END = 3          # L stands in bytes 1 and 2 and counts all that follows
LANGUAGE = b'eng'       # of the names that the box takes in

# answers has the receiver's answer to each section offered; check is what tuning.checked() finds at the end.
Outcome = namedtuple('Outcome', 'state store answers check')


# ------------------------------------------------------------------ what is offered

def cut(data):
    """The sections, each 3 + L bytes whatever L says; the last one may be unfinished."""
    at = 0
    while at < len(data):
        size = LENGTH_END
        if len(data) - at >= LENGTH_END:
            size += section_length(data[at:at + LENGTH_END])
        yield data[at:at + size]
        at += size


def outcome(data):
    """What becomes of an input of at least two bytes: a fresh box gets its sections one after the other."""
    state, store, answers = receiver.fresh(word(data, 0), LANGUAGE), bytearray(receiver.STORE_BYTES), []
    for section in cut(data[MAP_BYTES:]):
        answer, state = receiver.offer(state, store, section)
        answers.append(answer)
    return Outcome(state, store, answers, tuning.checked(state, store))


# ------------------------------------------------------------------ channel lines

def worth_asking(check):
    """The channel numbers that may have a line, ascending.

    A channel without a channel record is refused (17 or 18), and all are refused while tables aren't live, so
    only the numbers that stand in the live VCM are left of the 4,096.
    """
    if not isinstance(check.tables, tuning.Tables):
        return []
    return sorted({record.number for records in check.tables.vcm for record in records})


def answer_words(answer):
    """What stands behind the channel number."""
    both = 'hidden=%d path=%d' % (answer.hidden, answer.path)
    if isinstance(answer, tuning.Digital):
        return 'kind=digital %s khz=%d program=%d system=%d inner=%d split=%d format=%d symbols=%d' % (
            (both, answer.khz, answer.program) + answer.mode)
    if isinstance(answer, tuning.Analogue):
        return 'kind=analogue %s khz=%d standard=%d scrambled=%d' % (
            both, answer.khz, answer.standard, answer.scrambled)
    return 'kind=application %s application=%d' % (both, answer.number)


def listed(check, numbers):
    """(number, answer) for each of the numbers that isn't refused."""
    answers = [(number, tuning.ask(check, number)) for number in numbers]
    return [each for each in answers if not isinstance(each[1], Refusal)]


def channel_lines(check, numbers):
    return ['channel=%d %s' % (number, answer_words(answer)) for number, answer in listed(check, numbers)]


# ------------------------------------------------------------------ the whole output

def version_words(table):
    return str(table.live.version) if table.live.present else 'none'


def head_lines(found):
    """Everything before `channels`."""
    refused = sum(answer.kind == receiver.REFUSED for answer in found.answers)
    lines = ['lineup=1', 'map=%d' % found.state.map_number, 'sections=%d' % len(found.answers),
             'refused=%d' % refused]
    return lines + ['%s=%s' % (name.lower(), version_words(table))
                    for name, table in zip(receiver.ORDER, found.state.tables)]


def as_bytes(lines):
    return ''.join(line + '\n' for line in lines).encode('ascii')


def printed(found):
    """The output for an outcome."""
    channels = channel_lines(found.check, worth_asking(found.check))
    return as_bytes(head_lines(found) + ['channels=%d' % len(channels)] + channels)


def lineup(data):
    """All that `lineup` prints for this input."""
    if len(data) < MAP_BYTES:
        return as_bytes(['lineup=refused'])
    return printed(outcome(data))


if __name__ == '__main__':
    sys.stdout.buffer.write(lineup(sys.stdin.buffer.read()))
