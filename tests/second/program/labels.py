"""Mofrindi: the program `labels` of request 2026-01, a second one.

python3 tests/second/program/labels.py < CAPTURE

The input and the box are those of lineup.py.  For each channel that `lineup` lists there is a line with its label
in hexadecimal; the program lends an empty fallback, so nothing stands behind `label=` where there is no name.
"""

import os
import sys

sys.dont_write_bytecode = True
sys.path.insert(0, os.path.dirname(os.path.dirname(os.path.abspath(__file__))))

from program import label, lineup, tuning
from program.section import NTT


def label_line(number, shown):
    return 'channel=%d label=%s' % (number, shown.hex().upper())


def label_lines(found, numbers):
    """A line for each of the numbers that `lineup` lists."""
    check = label.checked(found.state, found.store, found.check)
    return [label_line(number, label.shown(label.ask(check, number), found.store, b''))
            for number, _ in lineup.listed(found.check, numbers)]


def printed(found):
    """The output for an outcome of lineup.py."""
    lines = label_lines(found, lineup.worth_asking(found.check))
    return lineup.as_bytes(['labels=1', 'map=%d' % found.state.map_number,
                            'ntt=' + lineup.version_words(tuning.table_of(found.state, NTT)),
                            'channels=%d' % len(lines)] + lines)


def labels(data):
    """All that `labels` prints for this input."""
    if len(data) < lineup.MAP_BYTES:
        return lineup.as_bytes(['labels=refused'])
    return printed(lineup.outcome(data))


if __name__ == '__main__':
    sys.stdout.buffer.write(labels(sys.stdin.buffer.read()))
