"""Mofrindi: compares a program that prints line-ups and labels with lineup.py and labels.py, over a batch of runs.

compare_lineup.py PROGRAM [--seed N] [--count N] [--parse]

PROGRAM gets all runs on its standard input, each as a byte (0 for the text of `lineup`, 1 for that of `labels`),
a length (4 bytes, lowest first) and the bytes that `lineup` or `labels` would get.  For each it writes a length
(4 bytes, lowest first) and all that the program prints for it.  A long batch is cut into chunks, each for a start
of PROGRAM of its own.
"""

import os
import sys
from collections import Counter

sys.dont_write_bytecode = True
sys.path.insert(0, os.path.dirname(os.path.dirname(os.path.abspath(__file__))))

from compare.compare_receiver import said as offer_words
from compare.compare_section import SHOWN, Failure, command, written
from compare.compare_tuner import said as channel_words
from generate import runs
from generate.run_parts import LABELS, LINEUP, unmet_claim
from program import label, labels, lineup, tuning
from program.receiver import STORED

COUNT = 600             # random runs; some 7,000 with the directed ones, all in all some seconds
CHUNK = 2000            # random runs given to one start of PROGRAM
SEED_STEP = 1000003     # so that the chunks of near seeds are not the same
LENGTH_BYTES = 4
SHORT = 400             # bytes of an input that is printed

# What the batch must reach.  A fresh box and `lineup` never give 1, 2, 14 and 16: the store is long enough,
# the state well formed, no number is above 4095, and the places hold what the receiver put there.
OFFERS = ['stored', 'live', 'repeat', 'other map'] + ['refused %d' % number for number in range(3, 14)]
CHANNELS = (['digital', 'analogue', 'application']
            + ['refused %d' % number for number in (15, 17, 18, 19, 20, 21)])
# Of the channels that `labels` lists: it lends an empty fallback, and what it lists is never refused.
LABEL_WORDS = ['named source', 'named application', 'no name']
TEXTS = {LINEUP: lineup.lineup, LABELS: labels.labels}
PRINTED = {LINEUP: lineup.printed, LABELS: labels.printed}


# ------------------------------------------------------------------ the program's side

def outputs(batch, data):
    """What the program wrote for each run, or one clear line on what is wrong with all of it."""
    found, at = [], 0
    for number, run in enumerate(batch):
        what = 'run %d of %d (%s: %s)' % (number + 1, len(batch), run.family, run.name)
        if len(data) - at < LENGTH_BYTES:
            raise Failure('the program writes too little: no length for %s' % what)
        size = int.from_bytes(data[at:at + LENGTH_BYTES], 'little')
        at += LENGTH_BYTES
        if len(data) - at < size:
            raise Failure('the program writes too little: %d bytes for %s, and %d are there'
                          % (size, what, len(data) - at))
        found.append(data[at:at + size])
        at += size
    if at != len(data):
        raise Failure('the program writes too much: %d bytes behind the last run' % (len(data) - at))
    return found


# ------------------------------------------------------------------------ in words

def stored_words(answer):
    return STORED if answer.kind == STORED else offer_words(answer)


def asked_channels(check):
    """The channels for the histogram: those with a record, and the first and last of each range."""
    if not isinstance(check.tables, tuning.Tables):
        return [0]
    borders = {number for ranges in check.tables.dcm for each in ranges for number in (each.first, each.last)}
    return sorted(borders.union(lineup.worth_asking(check)))


def listed_labels(found):
    """The label of each channel that `labels` lists, in words."""
    check = label.checked(found.state, found.store, found.check)
    for number, answer in lineup.listed(found.check, lineup.worth_asking(found.check)):
        kind = 'application' if isinstance(answer, tuning.Application) else 'source'
        found_label = label.ask(check, number)
        yield {label.Named: 'named ' + kind, label.Fallback: 'no name'}.get(type(found_label), 'refused')


def line_at(lines, at):
    return lines[at].decode('ascii', 'backslashreplace') if at < len(lines) else '(no more)'


def first_difference(right, got, text=LINEUP):
    """The first line that differs, from both."""
    right, got = right.split(b'\n'), got.split(b'\n')
    at = next(at for at in range(max(len(right), len(got))) if line_at(right, at) != line_at(got, at))
    return ['line %d of the program: %s' % (at + 1, line_at(got, at)),
            'line %d of %-13s%s' % (at + 1, text + '.py:', line_at(right, at))]


def shown_input(run):
    hexed = ': ' + run.data.hex() if len(run.data) <= SHORT else ''
    return 'input of %d bytes%s' % (len(run.data), hexed)


# -------------------------------------------------------------------- what is found

class Findings:
    """Counts over all chunks, and lines on the first things that went wrong."""

    def __init__(self):
        self.runs = self.bytes = self.differing = self.unmet = 0
        self.offers, self.channels, self.labels = Counter(), Counter(), Counter()
        self.families, self.differing_families = Counter(), Counter()
        self.lines = []

    def say(self, lines):
        if self.differing + self.unmet <= SHOWN:
            self.lines += lines

    def differs(self, run, right, got):
        self.differing += 1
        self.differing_families[run.family] += 1
        self.say(['difference: %s, %s: %s' % (run.text, run.family, run.name)]
                 + ['  ' + line for line in first_difference(right, got, run.text) + [shown_input(run)]])

    def claim(self, run, words):
        self.unmet += 1
        self.say(['claim not met: %s: %s: %s' % (run.family, run.name, words)])

    def missing(self, words):
        self.unmet += 1
        self.lines.append(words)


def right_output(findings, run):
    """What lineup.py or labels.py prints for a run; its answers are counted."""
    findings.runs += 1
    findings.bytes += len(run.data)
    findings.families[run.family] += 1
    if len(run.data) < lineup.MAP_BYTES:
        return TEXTS[run.text](run.data)
    found = lineup.outcome(run.data)
    findings.offers.update(map(stored_words, found.answers))
    if run.text == LABELS:
        findings.labels.update(listed_labels(found))
    else:
        findings.channels.update(channel_words(tuning.ask(found.check, number))
                                 for number in asked_channels(found.check))
    return PRINTED[run.text](found)


def judge(findings, batch, got):
    """Compares a chunk: all outputs, the claims, and each grown run with its twin."""
    right = [right_output(findings, run) for run in batch]
    for run, wanted, printed in zip(batch, right, got):
        if wanted != printed:
            findings.differs(run, wanted, printed)
        words = unmet_claim(run.claims, wanted)
        if words is not None:
            findings.claim(run, '%s.py: %s' % (run.text, words))
        if run.twin is None:
            continue
        for said, own, all_of_them in ((run.text + '.py', wanted, right), ('the program', printed, got)):
            if own != all_of_them[run.twin]:
                findings.claim(run, '%s prints something else than for the plain twin' % said)


def judge_reached(findings):
    """Answers that must be reached and aren't, and answers that can't be."""
    for what, reached, wanted in (('section', findings.offers, OFFERS),
                                  ('channel', findings.channels, CHANNELS),
                                  ('label', findings.labels, LABEL_WORDS)):
        for words in wanted:
            if not reached[words]:
                findings.missing('no %s has the answer %s' % (what, words))
        for words in reached:
            if words not in wanted:
                findings.missing('a %s has the answer %s, which no run should reach' % (what, words))


def print_findings(findings):
    for what, reached, wanted in (('offers:', findings.offers, OFFERS),
                                  ('channels:', findings.channels, CHANNELS),
                                  ('labels:', findings.labels, LABEL_WORDS)):
        print(what)
        for words in wanted:
            print('  %-17s %7d' % (words, reached[words]))
    print('families:')
    for family, size in findings.families.items():
        print('  %-46s %5d' % (family, size))
    for line in findings.lines:
        print(line)
    for family, count in findings.differing_families.items():
        print('runs that differ in %s: %d' % (family, count))


# ------------------------------------------------------------------------ the whole

def chunks(seed, count):
    """The batch in chunks: the directed runs with the first random ones, then random ones alone."""
    yield runs.batch(seed, min(count, CHUNK))
    for number, start in enumerate(range(CHUNK, count, CHUNK), 1):
        yield runs.batch(seed * SEED_STEP + number, min(count - start, CHUNK), directed=False)


def compare(program, seed, count):
    """The number of things that went wrong; prints what and where."""
    findings = Findings()
    for batch in chunks(seed, count):
        judge(findings, batch, outputs(batch, written(program, b''.join(map(runs.request, batch)))))
    judge_reached(findings)
    print_findings(findings)
    print('seed %d: %d runs, %d million bytes, %d runs differ, %d claims not met'
          % (seed, findings.runs, round(findings.bytes / 1000000), findings.differing, findings.unmet))
    return findings.differing + findings.unmet


if __name__ == '__main__':
    sys.exit(command(compare, COUNT,
                     'Compare the line-ups and labels that a program prints with those of lineup.py and '
                     'labels.py, over a batch of generated runs: the whole input of `lineup` or `labels`, each.',
                     'random runs; the directed ones are always all there'))
