"""Mofrindi: a seeded generator of runs for comparing two programs that print the line-up or the labels.

A run is the whole input of `lineup` or `labels`.  batch() gives the directed runs, each with a family and a name,
then random ones, and some of all these again for `labels`; request() gives the bytes of a run for a program.
"""

import sys

sys.dont_write_bytecode = True

from generate.directed_runs import DIRECTED, GROWN, long_filler
from generate.field_runs import FIELDS
from generate.growth import grown_input
from generate.label_runs import LABEL_RUNS
from generate.long_runs import LONG
from generate.pieces import Dice, reseal
from generate.plants import section_of_body
from generate.run_parts import LABELS, LINEUP, Run, marked, mixed, one_run
from generate.texts import ENGLISH
from generate.trials import NOISE, Sender, another_owner, bad_section, section_of, shuffled
from generate.tuning_trials import random_body, random_plant
from program.lineup import MAP_BYTES, cut
from program.receiver import ORDER

BASES = (0, 0, 1, 95, 2040, 4076, 4080)     # first channel of a random plant, as in tuning_trials.py
EVERY = 8               # of the runs for `lineup` one in so many is asked for `labels` as well
LONG_EVERY = 40         # and of those with so many bytes one in so many
LONG_BYTES = 60000


# ------------------------------------------------------------------ random plants

def table_feed(dice, name, bodies, base, version, map_number):
    """The sections of a version in any order, perhaps with repeats and with others of the same number."""
    last = len(bodies) - 1
    sent = shuffled(dice, [section_of_body(dice, name, map_number, body, version, number, last)
                           for number, body in enumerate(bodies)])
    for _ in range(dice.below(3)):
        sent.insert(dice.below(len(sent) + 1), dice.one(sent))
    if dice.chance(4):
        other = random_body(dice, name, base)
        sent.insert(dice.below(len(sent) + 1),
                    section_of_body(dice, name, map_number, other, version, dice.below(last + 1), last))
    return sent


def stray(dice, name, map_number):
    """A section between the others: of another map, refused, or of any version of the table."""
    way = dice.below(4)
    if way == 0:
        return bad_section(dice, name)
    last = dice.below(5)
    number, language = another_owner(dice, map_number) if way == 1 else (map_number, ENGLISH)
    return section_of(dice, name, number, dice.below(32), dice.below(last + 1), last, language=language)


def random_plants(dice):
    """One, two or three plants after each other, the last perhaps not whole; strays here and there."""
    base, map_number = dice.one(BASES), dice.below(0x10000)
    feeds, version = {name: [] for name in ORDER}, dice.below(32)
    for _ in range(dice.one((1, 1, 2, 3))):
        plant = random_plant(dice, base)
        for name in plant:
            sent = table_feed(dice, name, plant[name], base, version, map_number)
            feeds[name] += sent[1:] if dice.chance(12) else sent
        version = (version + dice.one((1, 1, 31, dice.below(32)))) % 32
    sections = mixed(dice, feeds.values())
    for _ in range(dice.below(4) if dice.chance(2) else 0):
        sections.insert(dice.below(len(sections) + 1), stray(dice, dice.one(ORDER), map_number))
    return one_run('random plants', '%d sections' % len(sections), map_number, sections)


# ----------------------------------------------------------------- random versions

class MarkedSender(Sender):
    """Sends the sections of marked plants."""

    def make(self, number, last, version=None, owner=None):
        map_number, language = (self.map_number, self.language) if owner is None else owner
        return marked(self.dice, self.name, self.version if version is None else version, number, last, map_number,
                      language)


def random_versions(dice):
    """Five tables that send their versions again and again, with more or less noise."""
    map_number = dice.below(0x10000)
    senders = [MarkedSender(dice, name, map_number) for name in ORDER]
    quiet = dice.one((3, 6, 15, 40))
    sections = []
    for _ in range(dice.between(8, 60)):
        sender = dice.one(senders)
        sections.append(dice.one(NOISE)(dice, sender) if dice.chance(quiet) else sender.send())
    return one_run('random versions', 'noise in one of %d' % quiet, map_number, sections)


def random_sections(dice):
    """Sections of one and the same version or two, with any records."""
    map_number, versions = dice.below(0x10000), (dice.below(32), dice.below(32))
    sections = []
    for _ in range(dice.between(1, 20)):
        last = dice.below(2)
        sections.append(bad_section(dice, dice.one(ORDER)) if dice.chance(6) else section_of(
            dice, dice.one(ORDER), map_number, dice.one(versions), dice.below(last + 1), last))
    return one_run('random sections', '%d sections' % len(sections), map_number, sections)


# ---------------------------------------------------------------------- damage

def hurt_bits(dice, data):
    for _ in range(dice.between(1, 4)):
        at = dice.below(len(data))
        data[at] ^= 1 << dice.below(8)


def hurt_cut(dice, data):
    del data[dice.below(len(data)):]


def hurt_dropped(dice, data):
    at = dice.below(len(data))
    del data[at:at + dice.between(1, 9)]


def hurt_more(dice, data):
    at = dice.below(len(data) + 1)
    data[at:at] = dice.bytes(dice.between(1, 12))


def hurt_map(dice, data):
    data[dice.below(min(MAP_BYTES, len(data)))] ^= 1 << dice.below(8)


def hurt_end(dice, data):
    """An unfinished section at the end, of any size and any L."""
    whole = long_filler(dice.one((5, 20, 300, 1021, 1022, 4095)), dice.below(256))
    data += whole[:dice.between(1, min(len(whole) - 1, 40))]


def hurt_between(dice, data):
    """Garbage that is a section by its length, between two sections."""
    sections = list(cut(bytes(data[MAP_BYTES:])))
    sections.insert(dice.below(len(sections) + 1),
                    long_filler(dice.one((0, 1, 4, 5, 60, 1021, 1022, 4095)), dice.below(256)))
    data[MAP_BYTES:] = b''.join(sections)


def hurt_behind_crc(dice, data):
    """A bit of a section, with its CRC put right."""
    sections = list(cut(bytes(data[MAP_BYTES:])))
    at = dice.below(len(sections))
    section = bytearray(sections[at])
    section[dice.below(len(section))] ^= 1 << dice.below(8)
    sections[at] = reseal(section) if len(section) > 4 else bytes(section)
    data[MAP_BYTES:] = b''.join(sections)


DAMAGES = (hurt_bits, hurt_bits, hurt_cut, hurt_dropped, hurt_more, hurt_map, hurt_end, hurt_between,
           hurt_behind_crc, hurt_behind_crc, hurt_behind_crc)


def random_damaged(dice):
    """Any random run, hurt once or twice."""
    run = dice.one((random_plants, random_versions))(dice)
    data, said = bytearray(run.data), []
    for _ in range(dice.between(1, 2)):
        way = dice.one(DAMAGES)
        if len(data) > MAP_BYTES:
            way(dice, data)
            said.append(way.__name__.replace('_', ' '))
    return Run('random damage', ', '.join(said), bytes(data), None, None)


# ----------------------------------------------------------------- random and whole

def grown_run(dice, run, back):
    """The run grown, so many places behind it; all its sections that read right or some of them."""
    data = grown_input(dice, run.data, some=dice.one((1, 1, 2, 4)))
    return Run(run.family + ', grown', run.name, data, back, None)


PLAIN = (random_plants, random_plants, random_versions, random_versions, random_damaged, random_damaged,
         random_plants, random_sections)


def random_runs(dice, count):
    """So many; behind one of three stands a grown twin, of which there are two now and then."""
    made = turn = 0
    while made < count:
        run = PLAIN[turn % len(PLAIN)](dice)
        yield run
        made, turn, back = made + 1, turn + 1, 1
        while made < count and len(run.data) >= MAP_BYTES and dice.chance(3):
            yield grown_run(dice, run, back)
            made, back = made + 1, back + 1


def numbered(runs):
    """The runs with the place of the twin in the batch where the makers say how far back it is."""
    return [run if run.twin is None else run._replace(twin=at - run.twin) for at, run in enumerate(runs)]


def again_for_labels(runs):
    """Some of the runs for `lineup` again, for `labels`; a grown run goes with its twin, and directed ones all do."""
    places, again = {}, []
    for at, run in enumerate(runs):
        first = at if run.twin is None else run.twin
        every = EVERY if len(runs[first].data) < LONG_BYTES else LONG_EVERY
        if run.text == LINEUP and (first % every == 0 or run.family == GROWN):
            places[at] = len(runs) + len(again)
            again.append(run._replace(text=LABELS, claims=None, twin=places.get(run.twin)))
    return again


def batch(seed, count, directed=True):
    """All directed runs, if wanted, then so many random ones, then some of them for `labels`."""
    dice = Dice(seed)
    makers = DIRECTED + FIELDS + LONG + LABEL_RUNS if directed else ()
    runs = [each for make_runs in makers for each in make_runs(dice)]
    runs.extend(random_runs(dice, count))
    runs = numbered(runs)
    return runs + again_for_labels(runs)


# ----------------------------------------------------------------- the wire of a run

TEXTS = (LINEUP, LABELS)        # their bytes are 0 and 1


def request(run):
    return bytes([TEXTS.index(run.text)]) + len(run.data).to_bytes(4, 'little') + run.data
