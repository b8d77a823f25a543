"""Mofrindi: compares a program's tuning and its labels with tuning.py and label.py, over a batch of trials.

compare_tuner.py PROGRAM [--seed N] [--count N] [--parse]

PROGRAM gets all trials on its standard input, as tuning_trials.py writes them.  For each channel to tune it
writes 20 bytes, all numbers little-endian:

  byte 0        0 refused, 1 digital, 2 analogue, 3 application
  bytes 1 to 7  refused: the number, then zeros; else hidden, path, zero, kHz (4 bytes, 0 for an application)
  bytes 8 to 15 digital: programme (2), system, inner, split, format, two zeros; analogue: standard, scrambled,
                six zeros; application: its number (2), six zeros; refused: zeros
  last 4 bytes  digital: symbols; else zeros

and then for each channel whose label is asked, with all numbers little-endian too:

  byte 0        0 refused, 1 named, 2 the fallback
  byte 1        refused: the number; else zero
  bytes 2 to 9  named: where in the store the name begins (4), and how many bytes it has (4); else zeros
  4 bytes       how many bytes the label shows, and these bytes
"""

import os
import struct
import sys
from collections import namedtuple

sys.dont_write_bytecode = True
sys.path.insert(0, os.path.dirname(os.path.dirname(os.path.abspath(__file__))))

from compare import batches
from compare.compare_receiver import shown_state
from compare.compare_section import Failure, command, written
from generate import tuning_trials
from generate.trials import state_bytes
from program import label, tuning
from program.receiver import ORDER, read
from program.section import Refusal

ANSWER_BYTES = 20
LABEL_HEAD = struct.Struct('<BBIII')    # kind, refusal, start, size, how many bytes are shown
COUNT = 1000            # random trials; all in all some seconds with the directed ones

KINDS = {tuning.Digital: 'digital', tuning.Analogue: 'analogue', tuning.Application: 'application'}
# A label's answer with what it shows.
Label = namedtuple('Label', 'answer shown')
LABEL_KINDS = {label.Named: 'named', label.Fallback: 'fallback'}
LABEL_WORDS = ('named', 'fallback', 'empty fallback')
WANTED = (['refused %d' % number for number in (1, 2) + tuple(range(14, 22))] + list(KINDS.values())
          + ['label: refused %d' % number for number in (1, 2) + tuple(range(14, 19))]
          + ['label: %s' % words for words in LABEL_WORDS])


def answer_bytes(answer):
    """The 20 bytes that a right program writes for an answer."""
    if isinstance(answer, Refusal):
        return struct.pack('<BB18x', 0, answer.number)
    if isinstance(answer, tuning.Digital):
        mode = answer.mode
        return struct.pack('<BBBxIHBBBB2xI', 1, answer.hidden, answer.path, answer.khz, answer.program,
                           mode.system, mode.inner, mode.split, mode.format, mode.symbols)
    if isinstance(answer, tuning.Analogue):
        return struct.pack('<BBBxIBB10x', 2, answer.hidden, answer.path, answer.khz, answer.standard,
                           answer.scrambled)
    return struct.pack('<BBB5xH10x', 3, answer.hidden, answer.path, answer.number)


def label_bytes(found):
    """The bytes that a right program writes for a label."""
    answer, shown = found
    if isinstance(answer, Refusal):
        head = (0, answer.number, 0, 0)
    else:
        head = (1, 0) + answer if isinstance(answer, label.Named) else (2, 0, 0, 0)
    return LABEL_HEAD.pack(*head, len(shown)) + shown


def right_answers(trial):
    """tuning.py's answers for the channels of a trial, and label.py's for those whose labels are asked."""
    store = bytes(tuning_trials.trial_store(trial))
    check = label.checked(trial.state, store)
    labels = [label.ask(check, number) for number in trial.labelled]
    return ([tuning.ask(check.tuner, number) for number in trial.channels]
            + [Label(answer, label.shown(answer, store, trial.fallback)) for answer in labels])


def right_bytes(answer):
    return label_bytes(answer) if isinstance(answer, Label) else answer_bytes(answer)


def said(answer):
    """The kind of an answer, with the number of a refusal."""
    if isinstance(answer, Label):
        return 'label: ' + label_words(answer)
    return 'refused %d' % answer.number if isinstance(answer, Refusal) else KINDS[type(answer)]


def label_words(found):
    if isinstance(found.answer, Refusal):
        return 'refused %d' % found.answer.number
    empty = isinstance(found.answer, label.Fallback) and not found.shown
    return ('empty ' if empty else '') + LABEL_KINDS[type(found.answer)]


def shown_bytes(data):
    """The answer that 20 bytes stand for, in words, and the bytes."""
    kind, hidden, path, khz = struct.unpack('<BBBxI', data[:8])
    both = 'hidden %d, path %d, %d kHz' % (hidden, path, khz)
    if kind == 0:
        words = 'refused %d' % hidden
    elif kind == 1:
        words = 'digital, %s, programme %d, system %d, inner %d, split %d, format %d, symbols %d' % (
            (both,) + struct.unpack('<HBBBB2xI', data[8:]))
    elif kind == 2:
        words = 'analogue, %s, standard %d, scrambled %d' % ((both,) + struct.unpack('<BB10x', data[8:]))
    elif kind == 3:
        words = 'application, hidden %d, path %d, number %d' % (
            (hidden, path) + struct.unpack('<H10x', data[8:]))
    else:
        words = 'kind %d' % kind
    return '%s (%s)' % (words, data.hex())


def shown_label(data):
    """The label that these bytes stand for, in words."""
    kind, refusal, start, size, count = LABEL_HEAD.unpack_from(data)
    words = {0: 'refused %d' % refusal, 1: 'named, %d bytes at %d' % (size, start), 2: 'fallback'}
    return '%s; shows %d bytes (%s)' % (words.get(kind, 'kind %d' % kind), count, data.hex())


def shown_place(trial, store, name, number):
    """What stands at a live place, as far as it can be said in a line."""
    table = trial.state.tables[ORDER.index(name)]
    data = tuning.held_bytes(store, name, table.half, number)
    content = read(data)
    if isinstance(content, Refusal):
        what = 'reads wrong (%d)' % content.number
    else:
        what = '%s %d/%d/%d, map %s, language %s' % (content.table, content.version, content.number, content.last,
                                                     content.map_number, content.language)
    return '%s %d: %s, %d bytes %s' % (name, number, what, len(data), data.hex())


def first_difference(trial, right, got):
    """Lines on the first channel whose answers differ, and on what is live."""
    at = next(at for at, (one, other) in enumerate(zip(right, got)) if one != other)
    what, show = ('tuning', shown_bytes) if at < len(trial.channels) else ('label', shown_label)
    channel = (trial.channels + trial.labelled)[at]
    lines = ['%s of channel %d, number %d of %d asked' % (what, channel, at + 1, len(right)),
             'the program: ' + show(got[at]), '%-13s' % (what + '.py:') + show(right[at]),
             'state: ' + shown_state(state_bytes(trial.state))]
    store = bytes(tuning_trials.trial_store(trial))
    if tuning.given_refusal(trial.state, store) is None:
        for name, table in zip(ORDER, trial.state.tables):
            lines += [shown_place(trial, store, name, number) for number in range(table.live.last + 1)]
    return lines


def meets(claim, answer):
    """A claimed name is bytes that must be shown from the store."""
    if isinstance(answer, Label):
        if isinstance(claim, bytes):
            return isinstance(answer.answer, label.Named) and answer.shown == claim
        answer = answer.answer
    return claim is None or (type(claim), claim) == (type(answer), answer)


def unmet(batch, answers, reached):
    """Lines on answers that the batch should reach and doesn't, and on claims not met."""
    lines = ['no channel has the answer %s' % words for words in WANTED if not reached[words]]
    for number, (trial, found) in enumerate(zip(batch, answers)):
        for channel, claim, answer in zip(trial.channels + trial.labelled, trial.claims + trial.label_claims, found):
            if not meets(claim, answer):
                lines.append('trial %d (%s: %s), channel %d claims %s, the second program answers %s'
                             % (number, trial.family, trial.name, channel, claim, answer))
    return lines


class Wire:
    """All that a program wrote, taken from the front."""

    def __init__(self, data):
        self.data, self.at = data, 0

    def take(self, size):
        if len(self.data) - self.at < size:
            raise Failure('the program writes too little: %d bytes in all' % len(self.data))
        self.at += size
        return self.data[self.at - size:self.at]

    def label(self):
        head = self.take(LABEL_HEAD.size)
        return head + self.take(LABEL_HEAD.unpack(head)[-1])


def trial_answers(wire, trial):
    return [wire.take(ANSWER_BYTES) for _ in trial.channels] + [wire.label() for _ in trial.labelled]


def ask_batch(program, batch):
    """The program's answers, a list of bytes for each trial: first of what it tunes, then of the labels."""
    wire = Wire(written(program, b''.join(map(tuning_trials.request, batch))))
    got = [trial_answers(wire, trial) for trial in batch]
    if wire.at != len(wire.data):
        raise Failure('the program writes too much: %d bytes behind the last trial' % (len(wire.data) - wire.at))
    return got


def compare(program, seed, count):
    """The number of things that went wrong; prints what and where."""
    batch = tuning_trials.batch(seed, count)
    got = ask_batch(program, batch)
    answers = [right_answers(trial) for trial in batch]
    right = [[right_bytes(answer) for answer in found] for found in answers]
    lines = unmet(batch, answers, batches.print_histogram(batch, answers, said, WANTED))
    differing, wrong = batches.report(batch, right, got, lines, first_difference)
    print('seed %d: %d trials, %d channels, %d labels, %d trials differ, %d claims not met'
          % (seed, len(batch), sum(len(trial.channels) for trial in batch),
             sum(len(trial.labelled) for trial in batch), differing, len(lines)))
    return wrong


if __name__ == '__main__':
    sys.exit(command(compare, COUNT,
                     'Compare the tuning and the labels of a program with tuning.py and label.py, over a batch '
                     'of generated trials: a state, a store, and channel numbers asked of them.',
                     'random trials; the directed ones are always all there'))
