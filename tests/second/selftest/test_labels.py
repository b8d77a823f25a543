"""Mofrindi: self test of labels.py, and of the runs for it.

Run with: python3 tests/second/selftest/test_labels.py

Inputs and outputs written by hand from request 2026-01.  Prints one line; exit 1 if any is wrong.
"""

import os
import sys

sys.dont_write_bytecode = True
sys.path.insert(0, os.path.dirname(os.path.dirname(os.path.abspath(__file__))))

from compare import compare_lineup
from generate import growth, run_parts, runs
from generate.pieces import Dice
from program import label, labels, lineup, receiver
from selftest import test_examples as examples
from selftest.test_label import name
from selftest.test_lineup import C10_LINE, DOCUMENT_LINE, MAP, plant, whole
from selftest.test_tuning import C9, C10, ntt, section, vcm

SLOW_RUNS = 120         # runs of which all 4,096 channels are asked

APPLICATION = '000A 80 0007 00 0000 00'
APPLICATION_LINE = 'channel=10 kind=application hidden=0 path=0 application=7'
CHANNELS = vcm(C9, C10, APPLICATION)        # channels 3, 8 and 10, with 0x1234, 0x1235 and application 7


def printed(text, *sections):
    return labels.labels(bytes.fromhex(text) + b''.join(sections)).decode('ascii')


def output(numbers, *lines):
    """Map and version, then the channel lines."""
    head = ['labels=1', 'map=%s' % numbers.split()[0], 'ntt=%s' % numbers.split()[1], 'channels=%d' % len(lines)]
    return '\n'.join(head + list(lines)) + '\n'


def channels(*labels_of):
    """The lines of channels 3, 8 and 10."""
    return ['channel=%d label=%s' % each for each in zip((3, 8, 10), labels_of)]


def named(v, *records, n=0, last=0, language=b'eng'):
    return section(ntt(*records, language=language), v, n, last)


def short():
    for data in (b'', b'\0', b'\xC3'):
        yield 'input %s' % data.hex(), labels.labels(data), b'labels=refused\n'
    yield 'input 00 00', labels.labels(b'\0\0'), b'labels=1\nmap=0\nntt=none\nchannels=0\n'
    yield 'unfinished', printed('00 01 C3 30'), output('1 none')


def outputs():
    tables = plant(vcm=CHANNELS)
    all_three = [name('One'), name('Two', 0x1235), name('Radio', 7, 1)]
    yield 'no names', printed(MAP, *tables), output('4660 none', *channels('', '', ''))
    yield 'all names', printed(MAP, *tables, named(6, *all_three)), output(
        '4660 6', *channels('00034F6E65', '000354776F', '0005526164696F'))
    yield 'names first', printed(MAP, named(6, *all_three), *tables), output(
        '4660 6', *channels('00034F6E65', '000354776F', '0005526164696F'))
    yield 'some names', printed(MAP, *tables, named(0, all_three[2])), output(
        '4660 0', *channels('', '', '0005526164696F'))
    yield 'the flag', printed(MAP, *tables, named(0, name('No', 7), name('No', 0x1234, 1))), output(
        '4660 0', *channels('', '', ''))
    yield 'capital letters', printed(MAP, *tables, named(9, '00 1234 06 AB 01 CD 3F 00 9F 00')), output(
        '4660 9', *channels('AB01CD3F009F', '', ''))
    yield 'another language', printed(MAP, *tables, named(6, *all_three, language=b'fra')), output(
        '4660 none', *channels('', '', ''))
    yield 'both languages', printed(MAP, *tables, named(6, *all_three, language=b'fra'), named(3, all_three[0]),
                                    named(4, *all_three, language=b'ENG')), output(
        '4660 3', *channels('00034F6E65', '', ''))
    yield 'only gathered', printed(MAP, *tables, named(6, *all_three, last=1)), output(
        '4660 none', *channels('', '', ''))
    yield 'two sections', printed(MAP, *tables, named(6, all_three[1], n=1, last=1), named(6, all_three[0], last=1)), (
        output('4660 6', *channels('00034F6E65', '000354776F', '')))
    yield 'bad text keeps the older', printed(MAP, *tables, named(6, all_three[0]), named(7, '00 1234 00 00')), output(
        '4660 6', *channels('00034F6E65', '', ''))
    yield 'replaced', printed(MAP, *tables, named(6, all_three[0]), named(7, all_three[1])), output(
        '4660 7', *channels('', '000354776F', ''))
    for at in range(4):
        rest = tables[:at] + tables[at + 1:]
        yield 'without table %d' % at, printed(MAP, *rest, named(6, *all_three)), output('4660 6')
    # `labels` lists what `lineup` lists: channel 8 doesn't tune without its carrier, though it has a name.
    fewer = plant(vcm=vcm(C9, '0008 10 1235 63 80 0000'))
    yield 'what tunes', printed(MAP, *fewer, named(6, *all_three)), output('4660 6', 'channel=3 label=00034F6E65')


def line_ups():
    """The same inputs in `lineup`: names show in `ntt=` alone."""
    tables = plant(vcm=CHANNELS)
    lines = (DOCUMENT_LINE, C10_LINE, APPLICATION_LINE)

    def line_up(*more):
        return lineup.lineup(bytes.fromhex(MAP) + b''.join(tables + list(more))).decode()

    yield 'lineup, names', line_up(named(6, name('One'))), whole('4660 5 0 5 5 5 5 6', *lines)
    yield 'lineup, another language', line_up(named(6, language=b'fra')), whole('4660 5 0 5 5 5 5 none', *lines)
    yield 'lineup, bad text', line_up(named(6, '00 1234 00 00')), whole('4660 5 1 5 5 5 5 none', *lines)
    yield 'lineup, version 0', line_up(named(0), named(0)), whole('4660 6 0 5 5 5 5 0', *lines)


def growing():
    """Grown names stay what they are; the label's place may move, its bytes don't."""
    dice = Dice(4)
    tables = plant(vcm=CHANNELS) + [named(6, name('One'), name('Two', 0x1235), name('Radio', 7, 1))]
    data = bytes.fromhex(MAP) + b''.join(tables)
    for said, way in growth.WAYS.items():
        grown = growth.grown_input(dice, data, way)
        yield 'grown, ' + said, labels.labels(grown), labels.labels(data)
    by_hand = examples.whole(0xC3, '00 656E67 06 01 00 1234 05 00 03 4F6E65 02 40 01 AA 93 00'
                                   '41 00 93 04 06 00 00 FF', 0)
    yield 'grown by hand', printed(MAP, *plant(vcm=CHANNELS), by_hand), output(
        '4660 6', *channels('00034F6E65', '', ''))
    yield 'taken apart', growth.draft_of(by_hand).whole(), by_hand


def slow_labels(data):
    """The same with all 4,096 channel numbers asked, each by the whole question."""
    found = lineup.outcome(data)
    lines = []
    for number, _ in lineup.listed(found.check, range(4096)):
        answer = label.question(found.state, found.store, number)
        lines.append('channel=%d label=%s' % (number, label.shown(answer, found.store, b'').hex().upper()))
    table = found.state.tables[receiver.ORDER.index('NTT')]
    version = str(table.live.version) if table.live.present else 'none'
    return output('%d %s' % (found.state.map_number, version), *lines).encode()


def shortcut():
    batch = [run for run in runs.batch(5, 60) if run.text == 'labels' and 2 <= len(run.data) < 9000]
    for run in batch[::max(len(batch) // SLOW_RUNS, 1)]:
        yield 'all channels: %s: %s' % (run.family, run.name), labels.labels(run.data), slow_labels(run.data)


def comparison():
    """A program that gives another label is found, and so is a claim that isn't met."""
    data = bytes.fromhex(MAP) + b''.join(plant(vcm=CHANNELS) + [named(6, name('One'))])
    right = labels.labels(data)
    batch = [run_parts.Run('f', 'right', data, None, run_parts.claim_lines('channel=3 label=00034F6E65'), 'labels'),
             run_parts.Run('f', 'wrong', data, None, run_parts.claim_lines('channel=3 label='), 'labels')]
    found = compare_lineup.Findings()
    compare_lineup.judge(found, batch, [right, right.replace(b'6E65', b'6E66')])
    yield 'judged', (found.runs, found.differing, found.unmet), (2, 1, 1)
    yield 'labels counted', dict(found.labels), {'named source': 2, 'no name': 4}
    yield 'first difference', compare_lineup.first_difference(b'a\nb\n', b'a\nc\n', 'labels'), [
        'line 2 of the program: c', 'line 2 of labels.py:   b']


def main():
    tried = []
    for cases in (short, outputs, line_ups, growing, shortcut, comparison):
        tried.extend(cases())
    return examples.report(tried)


if __name__ == '__main__':
    sys.exit(main())
