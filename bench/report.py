"""Mofrindi: writes bench/RESULTS.md and bench/cost.svg from the figures of bench/run.

report.py FIGURES COMMIT [emulated]
"""

import datetime
import os
import platform
import re
import subprocess
import sys
from collections import namedtuple

BENCH = os.path.dirname(os.path.abspath(__file__))
PLACES = 16
STORE_BYTES = {256: PLACES * 256, 512: PLACES * 512, 1024: PLACES * 1024}
MARK_BYTE, MARK_SMALL, MARK_STREAM = 6.9, 418, 11300000
MARKED_BYTES = 1000000          # the stream of the last mark

# instructions and nanoseconds of one turn
Turn = namedtuple('Turn', 'proved plain proved_time plain_time')
Sections = namedtuple('Sections', 'count bytes')
# instructions are None where they weren't counted
Stream = namedtuple('Stream', 'bytes proved plain proved_time proved_memory plain_time plain_memory')


def read_figures(path):
    """The turns by name, and the streams in their order."""
    turns, streams = {}, []
    with open(path) as file:
        for line in file:
            name, *values = line.rstrip('\n').split('\t')
            numbers = [None if each == '-' else float(each) for each in values]
            if name.startswith('stream '):
                streams.append(Stream(int(name.split()[1]), *numbers))
            else:
                turns[name] = Turn(*numbers)
    return turns, streams


def read_sections(path):
    """How many sections a file of inputs.py has, and their bytes."""
    with open(path, 'rb') as file:
        data = file.read()
    at = count = 0
    while at < len(data):
        at += 4 + int.from_bytes(data[at:at + 4], 'little')
        count += 1
    return Sections(count, len(data) - 4 * count)


# ---------------------------------------------------------------------- tables

def shown(number, digits=0):
    return '{:,.{}f}'.format(number, digits)


def table(head, rows):
    """A table of Markdown, numbers to the right."""
    lines = ['| %s |' % ' | '.join(head), '|---|%s' % ('---:|' * (len(head) - 1))]
    return '\n'.join(lines + ['| %s |' % ' | '.join(row) for row in rows]) + '\n'


HEAD = ('work', 'proved, instructions', 'plain C, instructions', 'ratio', 'time ratio', 'mark for C')


def row(work, turn, mark='', per=1, digits=0):
    """A turn, or its part for one of so many."""
    return (work, shown(turn.proved / per, digits), shown(turn.plain / per, digits),
            '%.2f' % (turn.proved / turn.plain), '%.2f' % (turn.proved_time / turn.plain_time), mark)


def stream_of_sections(words, turn, sections, mark_section='', mark_byte=''):
    """Two rows: of a section and of a byte."""
    yield row('%s, %s bytes a section: a section' % (words, shown(sections.bytes / sections.count, 1)), turn,
              mark_section, sections.count)
    yield row('%s: a byte' % words, turn, mark_byte, sections.bytes, 2)


def check_rows(turns, plant, small):
    for name in ('CDS', 'MMS', 'VCM', 'DCM', 'NTT'):
        for length in (24, 64, 256, 1024):
            yield row('%s, %s bytes' % (name, shown(length)), turns['check %s %d' % (name.lower(), length)])
    yield from stream_of_sections('full plant', turns['check plant'], plant, mark_byte='%.1f' % MARK_BYTE)
    yield from stream_of_sections('small sections', turns['check small'], small, shown(MARK_SMALL))


OFFERS = (('repeats', 'repeats'), ('is_stored', 'is stored'), ('goes_live', 'goes live'))
SIZES = (('full', 'VCM of 1,022 bytes'), ('small', 'CDS of 22 bytes'), ('names', 'NTT of 1,022 bytes'))


def offer_rows(turns):
    for size, section in SIZES:
        for kind, words in OFFERS:
            yield row('%s, %s' % (section, words), turns['offer %s %s' % (kind, size)])


CHANNELS = ((1, 'first records'), (3071, 'last records'), (3072, 'not defined'), (3070, 'no record'))


def tune_rows(turns):
    mark = shown(MARK_BYTE * STORE_BYTES[1024])
    for channel, words in CHANNELS:
        yield row('one channel, %s' % words, turns['tune %d 1024' % channel], mark)
    yield row('all 4,096 channels, with reading the plant once', turns['lineup plant'])


LABELS = (('first', 'first name of the table'), ('last', 'last name of the table'),
          ('none', 'no such name: fallback'), ('not live', 'names not live: fallback'))


def label_rows(turns):
    for name, words in LABELS:
        yield row('one channel, %s' % words, turns['label ' + name])


def stream_rows(streams):
    for each in streams:
        counted = each.proved is not None
        proved, plain = ((shown(each.proved), shown(each.plain)) if counted else ('not counted',) * 2)
        ratio = '%.2f' % (each.proved / each.plain) if counted else ''
        yield (shown(each.bytes), proved, plain, ratio, '%.2f' % (each.proved_time / each.plain_time),
               shown(MARK_STREAM) if MARKED_BYTES * 0.99 < each.bytes <= MARKED_BYTES else '')


def spent_rows(streams):
    for each in streams:
        yield (shown(each.bytes), '%.3f' % each.proved_time, '%.3f' % each.plain_time, shown(each.proved_memory),
               shown(each.plain_memory))


def growth(name, sizes, costs):
    """Instructions for each byte more, from one size to the next; costs has pairs of both sides."""
    for at in range(1, len(sizes)):
        more = sizes[at] - sizes[at - 1]
        proved, plain = (costs[at][side] - costs[at - 1][side] for side in (0, 1))
        yield ('%s, from %s to %s bytes' % (name, shown(sizes[at - 1]), shown(sizes[at])), shown(proved / more, 3),
               shown(plain / more, 3))


def growth_rows(turns, streams):
    counted = [each for each in streams if each.proved is not None]
    yield from growth('`lineup`', [each.bytes for each in counted], [(each.proved, each.plain) for each in counted])
    tunings = [turns['tune 3071 %d' % length] for length in STORE_BYTES]
    costs = [(each.proved, each.plain) for each in tunings]
    yield from growth('tuning, all live places', list(STORE_BYTES.values()), costs)


# ------------------------------------------------------------------ the machine

def processor():
    """Its name alone."""
    try:
        listed = subprocess.run(['lscpu'], stdout=subprocess.PIPE,
                                env={'LC_ALL': 'C', 'PATH': os.environ.get('PATH', '')})
    except OSError:
        return 'processor not named'
    found = re.search(r'^Model name:\s*(\S.*)$', listed.stdout.decode('utf-8', 'replace'), re.MULTILINE)
    return found.group(1).strip() if found else 'processor not named'


def counter(emulated):
    return "the trace of the toolchain's x86-64 emulator" if emulated else "valgrind's callgrind"


TEXT = '''# What the proved code costs beside plain C

Written by `bench/run` on {date}, at commit {commit}, on {machine} ({processor}).

Instructions are those of x86-64 code, counted exactly by {counter}. A turn is what two turns take more than
one: starting and reading the input are left out, calling is in it. A repeated move or fill, by which the C library
copies and fills some thousand bytes and more, counts once for each byte. Times are of both sides in one process in
turn, the best of 21 to 301 rounds; of whole programs the processor's time, the best of 15 runs. A ratio is proved to
plain C.

The plain C (`bench/plain`) was written from documents 01 and 02 and their readings, with the second program
(`tests/second/program`) at hand and without a look at the proved code: static tables, a CRC of eight bytes at a time,
one pass, no allocation, the same compiler with `-O2`. `bench/plain/test` compares it with the second program. Before
anything is counted here both sides must give the same answers, and the same stores after an offer, on what is measured;
also on sections of all kinds, most of them refused, and on the captures of `tests/captures`.

The marks are figures that such C reached elsewhere, on inputs of the same kind and size, not on these very bytes.

## The check of a section

{check}
The records of these sections have no descriptors, but for some of the small ones, and a DCM has at most 127 ranges:
what is left of its length is a closing list of descriptors that the box doesn't know. A name (NTT) has 15 bytes, one
block of text or, one in four, two; with its record it has no room in 24 bytes, as a channel's record (VCM) hasn't. The
plant and the small sections are of the four tables that tuning needs, and so is the plot.

![instructions against the length of a section](cost.svg)

## An offer

The state comes as 45 bytes on both sides and is checked whole; the answer alone is asked for.

{offer}
## Tuning

A full store: 16 live places of 1,024 bytes, all of them read and checked for each question; tuning needs no names, and
none are live. The mark is no count: it is {byte}, that of the check, for each of these bytes.

{tune}
The line-up is that of a plant of {sections} sections, {plant} bytes, from its input to the printed text. Most of what
the proved code takes more is the filling of its buffers, 1,294,336 bytes for the lines, the store and the listings,
each byte counted as an instruction: in the language a buffer begins with a value, and plain C's do not. Plain C doesn't
check the places a second time for it either: nothing but its receiver, which checked them, writes there.

## The label of a channel

The same full store with four live places more, of 50 names each; all 20 are read and checked for each question. The
channel with the first name has the first record and the first range of the other tables, that with the last name their
last ones. Where names are not live the store is that of tuning.

{label}
## The program `lineup`

A stream of that plant, again and again; the whole program, from its start to its end. The times of the short streams
are mostly those of starting it.

{stream}
| bytes | proved, s | plain C, s | proved, KB | plain C, KB |
|---|---:|---:|---:|---:|
{spent}{emulated}
## Growth

What each byte more costs, from one size to the next: where that stays the same the cost is linear. Tuning is that of
the last records, on 16 live places of 256, 512 and 1,024 bytes.

{growth}'''

EMULATED = '''
Times and memory are those of the emulator with the program in it. Longer streams are not counted there.
'''


def report(folder, turns, streams, commit, emulated):
    plant, small = (read_sections(os.path.join(folder, name + '.sections')) for name in ('plant', 'small'))
    spent = '\n'.join('| %s |' % ' | '.join(each) for each in spent_rows(streams)) + '\n'
    growths = table(('work', 'proved, instructions a byte more', 'plain C, instructions a byte more'),
                    growth_rows(turns, streams))
    return TEXT.format(
        date=datetime.date.today().isoformat(), commit=commit, machine=platform.machine(), processor=processor(),
        counter=counter(emulated), emulated=EMULATED if emulated else '',
        check=table(HEAD, check_rows(turns, plant, small)), offer=table(HEAD, offer_rows(turns)), byte=MARK_BYTE,
        tune=table(HEAD, tune_rows(turns)), sections=plant.count, plant=shown(plant.bytes),
        label=table(HEAD, label_rows(turns)), stream=table(('bytes',) + HEAD[1:], stream_rows(streams)),
        spent=spent, growth=growths)


# ---------------------------------------------------------------------- the plot

WIDTH, HEIGHT = 760, 460
LEFT, RIGHT, TOP, BOTTOM = 80, 150, 60, 70
COLOURS = {'proved': '#1f5fa8', 'plain C': '#b5541c'}


def step_of(most):
    """A round distance of lines, so that there are four to eight."""
    step = 1
    while most / step > 8:
        step = step * 2 if str(step)[0] in '15' else step // 2 * 5
    return step


class Plot:
    def __init__(self, most_x, most_y):
        self.most_x, self.step = most_x, step_of(most_y)
        self.most_y = self.step * -(-int(most_y) // self.step)
        self.parts = []

    def x(self, value):
        return LEFT + (WIDTH - LEFT - RIGHT) * value / self.most_x

    def y(self, value):
        return HEIGHT - BOTTOM - (HEIGHT - TOP - BOTTOM) * value / self.most_y

    def text(self, x, y, words, anchor='middle', more=''):
        self.parts.append('<text x="%.1f" y="%.1f" text-anchor="%s"%s>%s</text>' % (x, y, anchor, more, words))

    def line(self, x1, y1, x2, y2, colour, width=1):
        self.parts.append('<line x1="%.1f" y1="%.1f" x2="%.1f" y2="%.1f" stroke="%s" stroke-width="%s"/>'
                          % (x1, y1, x2, y2, colour, width))

    def axes(self):
        for value in range(0, self.most_y + 1, self.step):
            self.line(LEFT, self.y(value), WIDTH - RIGHT, self.y(value), '#dddddd')
            self.text(LEFT - 8, self.y(value) + 4, shown(value), 'end')
        for value in range(0, self.most_x + 1, 128):
            self.line(self.x(value), HEIGHT - BOTTOM, self.x(value), HEIGHT - BOTTOM + 5, '#444444')
            self.text(self.x(value), HEIGHT - BOTTOM + 20, shown(value))
        self.line(LEFT, HEIGHT - BOTTOM, WIDTH - RIGHT, HEIGHT - BOTTOM, '#444444', 1.5)
        self.line(LEFT, TOP, LEFT, HEIGHT - BOTTOM, '#444444', 1.5)
        self.text((LEFT + WIDTH - RIGHT) / 2, HEIGHT - 22, 'length of a section, bytes')
        self.text(20, (TOP + HEIGHT - BOTTOM) / 2, 'instructions', 'middle',
                  ' transform="rotate(-90 20 %.1f)"' % ((TOP + HEIGHT - BOTTOM) / 2))
        self.text(LEFT, 30, 'The check of a section, mean of the four tables', 'start', ' font-size="16"')

    def curve(self, name, points):
        colour = COLOURS[name]
        self.parts.append('<polyline fill="none" stroke="%s" stroke-width="2" points="%s"/>'
                          % (colour, ' '.join('%.1f,%.1f' % (self.x(x), self.y(y)) for x, y in points)))
        for x, y in points:
            self.parts.append('<circle cx="%.1f" cy="%.1f" r="3" fill="%s"/>' % (self.x(x), self.y(y), colour))
        last_x, last_y = points[-1]
        label = '%s: %s' % (name, shown(last_y))
        self.text(self.x(last_x) + 10, self.y(last_y) + 4, label, 'start', ' fill="%s"' % colour)

    def legend(self):
        for at, (name, colour) in enumerate(COLOURS.items()):
            y = TOP + 16 + 20 * at
            self.line(LEFT + 16, y, LEFT + 46, y, colour, 2)
            self.text(LEFT + 54, y + 4, name, 'start')

    def svg(self):
        return ('<svg xmlns="http://www.w3.org/2000/svg" viewBox="0 0 %d %d" width="%d" height="%d" '
                'font-family="sans-serif" font-size="13" fill="#222222">\n'
                '<rect width="100%%" height="100%%" fill="#ffffff"/>\n'
                '%s\n</svg>\n' % (WIDTH, HEIGHT, WIDTH, HEIGHT, '\n'.join(self.parts)))


def cost_plot(turns):
    """Of the turns 'check all LENGTH', each over one section of each of the four tables."""
    means = sorted((int(name.split()[2]), turn.proved / 4, turn.plain / 4)
                   for name, turn in turns.items() if name.startswith('check all '))
    plot = Plot(1024, max(proved for _, proved, _ in means))
    plot.axes()
    plot.curve('proved', [(length, proved) for length, proved, _ in means])
    plot.curve('plain C', [(length, plain) for length, _, plain in means])
    plot.legend()
    return plot.svg()


def write(name, text):
    with open(os.path.join(BENCH, name), 'w') as file:
        file.write(text)


def main():
    if len(sys.argv) not in (3, 4):
        sys.exit('report.py: takes the file of figures, the commit, and perhaps the word emulated')
    try:
        turns, streams = read_figures(sys.argv[1])
        folder = os.path.dirname(sys.argv[1])
        write('RESULTS.md', report(folder, turns, streams, sys.argv[2], len(sys.argv) == 4 and sys.argv[3] != ''))
        write('cost.svg', cost_plot(turns))
    except (OSError, ValueError, TypeError, KeyError) as error:
        sys.exit('report.py: the figures are not those of bench/run: %s' % error)


if __name__ == '__main__':
    main()
