"""Mofrindi: long runs for `lineup`: a program may read its input in pieces of 65,536 bytes.

Sections straddle every multiple of 65,536, also with the boundary in their first three bytes.  Those that
straddle make a version live, so that the output shows if they aren't read whole.
"""

from generate.directed_runs import long_filler, plant_sections
from generate.growth import grown_input
from generate.pieces import seal
from generate.plants import padded
from generate.run_parts import MAP, Run, claim_lines, claim_marked, marked, marked_plant, run_input
from generate.trials import shuffled
from generate.tuning_trials import full_plant
from program.receiver import ORDER, PLACE_BYTES, read
from program.section import CDS, DCM, MMS, NTT, VCM

PIECE = 65536
LEAST_FILLER = 3
MOST_FILLER = 4098
VERSIONS = 31           # that of the plant; the sections that straddle have those below it


# -------------------------------------------------------------------- filling up

def filler(dice, size):
    """A section of this size that is refused: no table, a wrong CRC, or too long."""
    if size < 8 or dice.chance(3):
        return long_filler(size - 3, dice.below(256))
    whole = seal(dice.one((0xC3, 0, 0xFF)), dice.bytes(size - 7))
    return whole if dice.chance(2) else whole[:-1] + bytes([whole[-1] ^ 1])


def fillers(dice, size):
    """Refused sections of so many bytes together: none, or three and more."""
    whole = []
    while size > MOST_FILLER:
        # What is left is then at least three bytes.
        whole.append(filler(dice, dice.between(LEAST_FILLER, MOST_FILLER - LEAST_FILLER)))
        size -= len(whole[-1])
    return whole + ([filler(dice, size)] if size else [])


class Feed:
    """The sections of a run so far; at is the place in the input behind them."""

    def __init__(self, dice, plant):
        self.dice, self.plant, self.next = dice, plant, 0
        self.sections, self.at, self.refused = [], 2, 0

    def add(self, section):
        self.sections.append(section)
        self.at += len(section)

    def refuse(self, section):
        self.refused += 1
        self.add(section)

    def up_to(self, place):
        """Sections of the plant again and again, then refused ones: the next section begins at place."""
        section = self.plant[self.next % len(self.plant)]
        while self.at + len(section) + LEAST_FILLER <= place:
            self.add(section)
            self.next += 1
            section = self.plant[self.next % len(self.plant)]
        for each in fillers(self.dice, place - self.at):
            self.refuse(each)


# ------------------------------------------------------------------ over the boundaries

LASTS = {CDS: 3, MMS: 1, VCM: 2, DCM: 3, NTT: 1}


def straddled(dice, end, into, name=VCM):
    """A run with into bytes of a section before each multiple of 65,536 that is below end.

    Each straddling section makes the next version of one table live; the other tables are those of a marked
    plant of version 31, sent again and again.
    """
    feed = Feed(dice, marked_plant(dice, VERSIONS, [LASTS[each] for each in ORDER]))
    for section in feed.plant:
        feed.add(section)
    # Sections of this table would come between, so from here on only those of the others are sent.
    feed.plant = [each for each in feed.plant if read(each).table != name]
    live = {each: (VERSIONS, LASTS[each]) for each in ORDER}
    for version, boundary in enumerate(range(PIECE, end, PIECE)):
        section = marked(dice, name, version, 0, 0)
        feed.up_to(boundary - min(into, len(section)))
        feed.add(section)
        live[name] = (version, 0)
    return feed, live


def finished(family, said, feed, live, end=b''):
    if end:
        feed.refuse(end)
    return Run(family, said, run_input(MAP, feed.sections), None,
               claim_marked(MAP, len(feed.sections), feed.refused, [live[name] for name in ORDER]))


def boundaries(dice):
    """A section that begins everywhere near the first boundary, also behind it, and one that ends there."""
    for at, into in enumerate((-2, -1, 0, 1, 2, 3, 4, 5, 6, 7, 8, 12, 20, 40)):
        name = ORDER[at % len(ORDER)]
        feed, live = straddled(dice, PIECE + 1, into, name)
        yield finished('long', '%s begins at %d' % (name, PIECE - into), feed, live)
    for short in (1, 2, 4):
        feed, live = straddled(dice, PIECE + 1, len(marked(dice, CDS, 0, 0, 0)) - short, CDS)
        yield finished('long', 'CDS begins long before 65,536', feed, live)


def ends(dice):
    """Inputs of 65,530 to 65,545 bytes: the last section whole, or unfinished, before and behind 65,536."""
    for total in range(65530, 65546):
        feed, live = straddled(dice, PIECE - 100, 0)
        feed.up_to(total)
        yield finished('long', '%d bytes' % total, feed, live)
        size = 1 + (total * 7) % 20 if total % 3 else 3 + total % 9
        feed, live = straddled(dice, PIECE - 100, 0)
        feed.up_to(total - size)
        yield finished('long', '%d bytes, the last %d unfinished' % (total, size), feed, live,
                       marked(dice, CDS, 1, 0, 0)[:min(size, 15)] + bytes(max(size - 15, 0)))


def two_pieces(dice):
    """About 131,072 bytes: the input ends before, at and behind the second boundary, or straddles it."""
    for total in range(131069, 131077):
        feed, live = straddled(dice, PIECE + 1, total % 5)
        feed.up_to(total)
        yield finished('long', '%d bytes' % total, feed, live)
    for into in (1, 2, 3, 50):
        feed, live = straddled(dice, 2 * PIECE + 1, into)
        yield finished('long', '%d bytes, pieces end %d bytes into a section' % (feed.at, into), feed, live)


def begun_at(dice, place):
    """A plant up to this place, where the next section begins."""
    feed, live = straddled(dice, PIECE - 100, 0)
    feed.up_to(place)
    return feed, live


def big_sections(dice):
    """Sections of 4,098 bytes, whole and unfinished, and right ones of 1,024 bytes over the boundary."""
    for into in (1, 2, 3, 1000, 4097):
        feed, live = begun_at(dice, PIECE - into)
        feed.refuse(long_filler(4095, 0xC2))
        feed.add(marked(dice, VCM, 3, 0, 0))
        live[VCM] = (3, 0)
        yield finished('long', 'L = 4,095 with %d bytes before 65,536' % into, feed, live)
        feed, live = begun_at(dice, PIECE - into)
        yield finished('long', 'L = 4,095 with %d bytes before 65,536, unfinished' % into, feed, live,
                       long_filler(4095, 0xC2)[:into + 7])
    for into in (1, 2, 3, 500, 1023, 1024):
        feed, live = begun_at(dice, PIECE - into)
        feed.add(padded(marked(dice, VCM, 3, 0, 0), PLACE_BYTES))
        live[VCM] = (3, 0)
        yield finished('long', '1,024 bytes, %d of them before 65,536' % into, feed, live)


def piece_again(dice):
    """The second piece begins like the first and ends inside a section that the first has whole."""
    for missing in (1, 2, 4, 9):
        plant = shuffled(dice, marked_plant(dice, VERSIONS, [LASTS[each] for each in ORDER]))
        feed, live = Feed(dice, plant), {each: (VERSIONS, LASTS[each]) for each in ORDER}
        feed.up_to(PIECE - 1000)
        # A straddling section ends where the first section of the first piece begins.
        feed.refuse(filler(dice, PIECE + 2 - feed.at))
        for section in plant[:2]:
            feed.add(section)
        yield finished('long', 'the piece before again, %d bytes missing' % missing, feed, live,
                       plant[2][:-missing])


def many_pieces(dice):
    """Up to 400,000 bytes."""
    for total, into in ((200000, 1), (262500, 2), (300000, 3), (400000, 11)):
        feed, live = straddled(dice, total, into, ORDER[into % len(ORDER)])
        feed.up_to(total)
        yield finished('long', '%d bytes' % total, feed, live)


def full_again(dice):
    """A full plant sent again and again, then its grown twin, which straddles elsewhere."""
    plant = plant_sections(dice, full_plant(dice), 7)
    once = [section for name in ORDER for section in plant[name]]
    whole = once * 12
    data = run_input(MAP, whole)
    yield Run('long', 'a full plant, 12 times', data, None,
              claim_lines('sections=%d' % len(whole), 'refused=0', 'vcm=7'))
    yield Run('long', 'a full plant, 12 times, grown', grown_input(dice, data, some=3), 1, None)


def no_sections(dice):
    """Garbage: zeros are sections of three bytes, ones are of 4,098."""
    for size in (65534, 65537):
        count = (size + 2) // 3
        yield Run('long', '%d zero bytes' % size, run_input(MAP, [bytes(size)]), None,
                  claim_lines('sections=%d' % count, 'refused=%d' % count))
    for size in (PIECE - 2, PIECE, 3 * PIECE):
        count = -(-size // MOST_FILLER)
        yield Run('long', '%d bytes of 0xFF' % size, run_input(MAP, [b'\xFF' * size]), None,
                  claim_lines('sections=%d' % count, 'refused=%d' % count))
    yield Run('long', 'bytes by chance', run_input(MAP, [dice.bytes(PIECE + 9)]), None, None)


LONG = (boundaries, ends, two_pieces, big_sections, piece_again, many_pieces, full_again, no_sections)
