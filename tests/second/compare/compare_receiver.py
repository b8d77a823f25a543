"""Mofrindi: compares a program's receiver with receiver.py, over a batch of trials.

compare_receiver.py PROGRAM [--seed N] [--count N] [--parse]

PROGRAM gets all trials on its standard input, as trials.py writes them.  For each section it writes the kind
of the answer, its value and the 45 bytes of the state after it, and behind a trial's last section the CRC-32
(that of zlib, 4 bytes little-endian) of the whole store.
"""

import os
import sys
import zlib

sys.dont_write_bytecode = True
sys.path.insert(0, os.path.dirname(os.path.dirname(os.path.abspath(__file__))))

from compare import batches
from compare.compare_section import Question, ask, command
from generate import trials
from program.receiver import LIVE, ORDER, OTHER_MAP, REFUSED, REPEAT, STORED, offer, read
from program.section import LANGUAGE_BYTES, Refusal

KINDS = (REFUSED, OTHER_MAP, REPEAT, STORED, LIVE)      # their bytes are 0 to 4
STATE_BYTES = 2 + 8 * len(ORDER) + LANGUAGE_BYTES
STEP_BYTES = 2 + STATE_BYTES
CRC_BYTES = 4
COUNT = 1000            # random trials; all in all some seconds with the directed ones

# What the batch must reach; a version of its own is nothing special for live.
WANTED = (['refused %d' % number for number in range(1, 14)] + ['other map', 'repeat']
          + ['stored %d' % missing for missing in (1, 2, 3)] + ['live'])


def answer_bytes(answer, state):
    return bytes([KINDS.index(answer.kind), answer.value]) + trials.state_bytes(state)


def right_steps(trial):
    """receiver.py's answers to a trial, and all bytes that a right program writes for it."""
    store, state = trials.store_of(trial.length, trial.seed), trial.state
    answers, parts = [], []
    for section in trial.sections:
        answer, state = offer(state, store, section)
        answers.append(answer)
        parts.append(answer_bytes(answer, state))
    parts.append(zlib.crc32(store).to_bytes(CRC_BYTES, 'little'))
    return answers, b''.join(parts)


def said(answer):
    """An answer in words; live without its version."""
    return '%s %d' % answer if answer.kind in (REFUSED, STORED) else answer.kind


def shown_answer(data):
    kind, value = data[:2]
    return '%s %d' % (KINDS[kind], value) if kind < len(KINDS) else 'kind %d, value %d' % (kind, value)


def shown_state(data):
    """The map number, for each table live present/version/last, gathered with held, half, and the language."""
    shown = ['map %d' % int.from_bytes(data[:2], 'little')]
    for at, name in enumerate(ORDER):
        table = tuple(data[2 + 8 * at:10 + 8 * at])
        shown.append('%s %d/%d/%d %d/%d/%d/0x%02X half %d' % ((name,) + table))
    return ', '.join(shown + ['language %s' % data[-LANGUAGE_BYTES:]])


def shown_section(section):
    content = read(section)
    if isinstance(content, Refusal):
        what = 'reads wrong'
    else:
        what = '%s %d/%d/%d' % (content.table, content.version, content.number, content.last)
        what += '' if content.map_number is None else ', map %d' % content.map_number
        what += '' if content.language is None else ', language %s' % content.language
    start = section[:40].hex() + ('...' if len(section) > 40 else '')
    return '%s, %d bytes %s' % (what, len(section), start)


def first_difference(trial, right, got):
    """Lines on the first place where a trial's answers differ."""
    before = trials.state_bytes(trial.state)
    for at, section in enumerate(trial.sections):
        here = slice(at * STEP_BYTES, (at + 1) * STEP_BYTES)
        if right[here] != got[here]:
            return ['section %d of %d: %s' % (at + 1, len(trial.sections), shown_section(section)),
                    'state before: %s' % shown_state(before),
                    'the program:  %s; %s' % (shown_answer(got[here]), shown_state(got[here][2:])),
                    'receiver.py:  %s; %s' % (shown_answer(right[here]), shown_state(right[here][2:]))]
        before = right[here][2:]
    return ['store after the last section: its CRC-32 is %08X, with receiver.py %08X'
            % tuple(int.from_bytes(data[-CRC_BYTES:], 'little') for data in (got, right))]


def unmet(batch, answers, reached):
    """Lines on answers that the batch should reach and doesn't, and on claims not met."""
    lines = ['no section has the answer %s' % words for words in WANTED if not reached[words]]
    for number, (trial, found) in enumerate(zip(batch, answers)):
        for at, (claim, answer) in enumerate(zip(trial.claims, found)):
            if claim is not None and claim != answer:
                lines.append('trial %d (%s: %s), section %d claims %s %d, receiver.py answers %s %d'
                             % ((number, trial.family, trial.name, at + 1) + claim + answer))
    return lines


def ask_batch(program, batch, sizes):
    """The program's bytes for each trial; sizes says how many each must have."""
    question = Question(request=lambda whole: b''.join(map(trials.request, whole)), size=sum(sizes),
                        answer=None, show=None)
    got, start = ask(program, [batch], question)[0], 0
    for size in sizes:
        yield got[start:start + size]
        start += size


def compare(program, seed, count):
    """The number of things that went wrong; prints what and where."""
    batch = trials.batch(seed, count)
    sizes = [len(trial.sections) * STEP_BYTES + CRC_BYTES for trial in batch]
    got = list(ask_batch(program, batch, sizes))
    answers, right = zip(*map(right_steps, batch))
    lines = unmet(batch, answers, batches.print_histogram(batch, answers, said, WANTED))
    differing, wrong = batches.report(batch, right, got, lines, first_difference)
    print('seed %d: %d trials, %d sections, %d trials differ, %d claims not met'
          % (seed, len(batch), sum(map(len, answers)), differing, len(lines)))
    return wrong


if __name__ == '__main__':
    sys.exit(command(compare, COUNT,
                     'Compare the receiver of a program with receiver.py, over a batch of generated trials: '
                     'a state, a store, and sections offered one after the other.',
                     'random trials; the directed ones are always all there'))
