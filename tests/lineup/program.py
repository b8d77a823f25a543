"""Mofrindi: compares the programs `lineup` and `labels` themselves with lineup.py and labels.py, a start for each run.

program.py LINEUP LABELS [--seed N] [--count N]

The runs are those of tests/second/generate/runs.py: all long ones, and a part of the others.  Each input comes
through a pipe, whole or in pieces of any size, so that reads end anywhere.
"""

import os
import random
import signal
import subprocess
import sys
import threading

sys.dont_write_bytecode = True
sys.path.insert(0, os.path.join(os.path.dirname(os.path.abspath(__file__)), '..', 'second'))

from arguments import Parser, number_from
from compare.compare_lineup import TEXTS
from compare.compare_section import PATIENCE
from generate import runs
from generate.run_parts import LABELS, LINEUP

LONG = 60000            # bytes; such a run needs more than one read, or nearly
EVERY = 20              # of the other runs, one in so many
MOST_PIECES = 40


def chosen(batch):
    short = [run for run in batch if len(run.data) < LONG]
    return [run for run in batch if len(run.data) >= LONG] + short[::EVERY]


def in_pieces(dice, data):
    """The data, cut at some places."""
    places = sorted(dice.randrange(len(data) + 1) for _ in range(dice.randrange(MOST_PIECES)))
    for start, end in zip([0] + places, places + [len(data)]):
        yield data[start:end]


def feed(pipe, pieces):
    try:
        for piece in pieces:
            pipe.write(piece)
            pipe.flush()
        pipe.close()
    except BrokenPipeError:
        pass            # the program ended early: what it printed tells


def printed(program, pieces):
    """What a start of the program prints, and its exit status; one that hangs is ended."""
    started = subprocess.Popen([program], stdin=subprocess.PIPE, stdout=subprocess.PIPE, start_new_session=True)
    feeder = threading.Thread(target=feed, args=(started.stdin, pieces))
    patience = threading.Timer(PATIENCE, os.killpg, (started.pid, signal.SIGKILL))
    feeder.start()
    patience.start()
    out = started.stdout.read()
    feeder.join()
    patience.cancel()
    return out, started.wait()


def compare(programs, seed, count):
    """The number of runs that differ; says which.  Programs has one for each text."""
    dice, wrong = random.Random(seed), 0
    batch = chosen(runs.batch(seed, count))
    for run in batch:
        out, status = printed(programs[run.text], list(in_pieces(dice, run.data)))
        if out != TEXTS[run.text](run.data) or status != 0:
            wrong += 1
            print('difference: %s, %s: %s, %d bytes, exit status %d'
                  % (run.text, run.family, run.name, len(run.data), status))
    for text in programs:
        sizes = [len(run.data) for run in batch if run.text == text]
        print('%d starts of %s, %d of them with %d bytes or more'
              % (len(sizes), text, sum(size >= LONG for size in sizes), LONG))
    print('%d differ' % wrong)
    return wrong


if __name__ == '__main__':
    arguments = Parser(description='Compare lineup and labels with lineup.py and labels.py, a start for each run.')
    arguments.add_argument('lineup')
    arguments.add_argument('labels')
    arguments.add_argument('--seed', type=number_from(0), default=1)
    arguments.add_argument('--count', type=number_from(0), default=600, help='random runs, of which a part is taken')
    given = arguments.parse_args()
    try:
        sys.exit(compare({LINEUP: given.lineup, LABELS: given.labels}, given.seed, given.count) != 0)
    except OSError as error:
        sys.exit('program.py: %s can\'t be started: %s' % (error.filename, error.strerror))
