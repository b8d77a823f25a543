"""Mofrindi: captures for `lineup` and `labels`, each with the outputs that lineup.py and labels.py print for it.

captures.py [--check] DIR

Writes NAME.capture, NAME.lineup and NAME.labels into DIR, always the same bytes; with --check it only says which
of them are missing or different.
"""

import os
import sys

sys.dont_write_bytecode = True
sys.path.insert(0, os.path.dirname(os.path.dirname(os.path.abspath(__file__))))

from arguments import Parser
from generate.directed_runs import long_filler, plant_sections
from generate.growth import WAYS, grown_section
from generate.pieces import Dice, descriptor, reseal, revision, seal
from generate.plants import (Body, analogue, application, by125, carriers, digital, mode, name_of, padded,
                             section_of_body, spans)
from generate.run_parts import mixed, run_input
from generate.texts import ENGLISH, OTHER_LANGUAGES, WRONG, block, plain as text, sixteen_bit, wrong_text
from generate.trials import shuffled
from program.labels import labels
from program.lineup import lineup
from program.section import CDS, DCM, MMS, NTT, VCM
from program.tuning import NEEDED, ModeRecord

QAM_64 = ModeRecord(2, 15, 0, 8, 5056941)       # C12 of document 01
QAM_256 = ModeRecord(2, 15, 0, 16, 5360537)
WHOLE = 1024


# ------------------------------------------------------------------- the example

EXAMPLE_MAP = 0x0102    # its bytes differ, so that their order shows

# From byte 3 up to the revision: C1, C12, C9 with C10 and an application, and C7.  C7 doesn't define C10's
# channel 8, so the DCM has a section of its own in front that does.
EXAMPLE = (
    (0xC2, '00 01 01 01 02 80 30 81 C8 00', '93 03 E5 00 00'),
    (0xC2, '00 01 01 02 2F 08 00 4D 29 AD 00', '93 03 E5 00 00'),
    (0xC4, '00 00 01 02 00 00 00 00 00 00 03 00 03 00 12 34 02 00 03 01 00 08 10 12 35 02 80 00 00 '
           '00 0A 80 00 07 00 00 00 00', '93 03 E5 00 00'),
    (0xC4, '00 01 01 02 00 08 01 81', '93 03 E5 00 01'),
    (0xC4, '00 01 01 02 00 02 03 83 05 81', '93 03 E5 01 01'),
)


def example():
    return run_input(EXAMPLE_MAP, [seal(number, bytes.fromhex(front + closing))
                                   for number, front, closing in EXAMPLE])


# ---------------------------------------------------------------------- full

FULL_MAP = 0x1001
CARRIERS = 158          # of 6 MHz from 57,000 kHz on: up to 999,000 kHz
CHANNELS = 408


def full_channel(dice, number, carrier_count):
    """Mostly digital; one in 20 an application, one in 12 analogue, one in 10 hidden."""
    hidden, carrier = int(dice.chance(10)), 1 + number % carrier_count
    if number % 20 == 7:
        return application(number, 0x4000 + number, hidden)
    if number % 12 == 5:
        return analogue(number, carrier, dice.below(5), dice.below(2), hidden, source=0x1000 + number)
    return digital(number, carrier, 1 + number % 9, 1 + number % 2, hidden, dice.below(2),
                   source=0x1000 + number)


def defined_spans(numbers):
    """(first channel, range bytes) that define exactly these numbers, from the lowest to the highest."""
    whole, at = [], min(numbers)
    while at <= max(numbers):
        here, end = at in numbers, at
        while end <= max(numbers) and (end in numbers) == here and end - at < 127:
            end += 1
        whole.append('%02X' % (here << 7 | end - at))
        at = end
    return min(numbers), spans(' '.join(whole))


def dcm_bodies(numbers, parts):
    """Ranges for these numbers, in so many sections."""
    numbers = sorted(numbers)
    size = -(-len(numbers) // parts)
    return [Body(*defined_spans(numbers[start:start + size])) for start in range(0, len(numbers), size)]


def full_bodies(dice):
    numbers = shuffled(dice, [number for number in range(2, 470) if number % 8 != 6])[:CHANNELS]
    records = {number: full_channel(dice, number, CARRIERS) for number in numbers}
    vcm = []
    for part, count in enumerate((100, 104, 100, 104)):
        # With descriptors-included each record has one byte more, an empty list.
        vcm.append(Body(1 - part % 2, [records[number] for number in numbers[:count]]))
        del numbers[:count]
    return {CDS: [Body(1, [carriers(100, by125(48), by125(456))]),
                  Body(101, [carriers(CARRIERS - 100, by125(48), by125(456 + 4800))])],
            MMS: [Body(1, [mode(QAM_64), mode(QAM_256)])], VCM: vcm, DCM: dcm_bodies(records, 3)}


def full():
    """All sections in a mixed order, then some again, then all again."""
    dice = Dice(65)
    sections = plant_sections(dice, full_bodies(dice), 12, FULL_MAP)
    sections[VCM] = [each if len(each) > WHOLE - 8 else padded(each, WHOLE - 2) for each in sections[VCM]]
    once = mixed(dice, [shuffled(dice, sections[name]) for name in NEEDED])
    again = [dice.one(once) for _ in range(6)]
    return run_input(FULL_MAP, once[:7] + again[:3] + once[7:] + again[3:] + shuffled(dice, once))


# ---------------------------------------------------------------- plain and grown

PLAIN_MAP = 0x2002
PLAIN_CHANNELS = 96


def plain_bodies(dice):
    numbers = shuffled(dice, range(2, 2 + PLAIN_CHANNELS))
    vcm = [Body(1 - part % 2, [full_channel(dice, number, 40) for number in numbers[part::4]])
           for part in range(4)]
    return {CDS: [Body(1, [carriers(10, by125(48), by125(456 + 480 * part)) for part in range(2)]),
                  Body(21, [carriers(10, by125(48), by125(1416 + 480 * part)) for part in range(2)])],
            MMS: [Body(1, [mode(QAM_64)]), Body(2, [mode(QAM_256)])], VCM: vcm, DCM: dcm_bodies(numbers, 2)}


def plain_sections():
    """A version that is never complete, a plant, a part of another one, sections of another map, repeats."""
    dice = Dice(66)
    plant = plant_sections(dice, plain_bodies(dice), 3, PLAIN_MAP)
    older = plant_sections(dice, plain_bodies(dice), 2, PLAIN_MAP)
    newer = plant_sections(dice, plain_bodies(dice), 4, PLAIN_MAP)
    foreign = plant_sections(dice, plain_bodies(dice), 3, PLAIN_MAP + 1)
    lists = [older[name][1:] + shuffled(dice, plant[name]) + newer[name][:1] + plant[name] for name in NEEDED]
    return mixed(dice, lists + [foreign[VCM] + foreign[DCM]])


def plain():
    return run_input(PLAIN_MAP, plain_sections())


def grown():
    """The sections of plain, each grown in the next of all ways that finds room and a list in it."""
    dice, ways, sections = Dice(67), list(WAYS.values()), []
    for plain_one in plain_sections():
        for way in list(ways):
            section = grown_section(dice, plain_one, way)
            if section != plain_one:
                ways.remove(way)
                ways.append(way)
                break
        sections.append(section)
    return run_input(PLAIN_MAP, sections)


# ---------------------------------------------------------------------- damaged

def damages(dice, section):
    """The section in many ways not as it should be: all are refused, and what follows is cut right."""
    flipped = bytearray(section)
    flipped[dice.between(3, len(section) - 1)] ^= 1 << dice.below(8)
    yield bytes(flipped)
    yield section[:-1] + bytes([section[-1] ^ 0x80])
    yield reseal(b'\xC0' + section[1:])
    yield reseal(section[:3] + b'\x01' + section[4:])
    yield seal(section[0], section[3:-4] + b'\x40\x09')
    yield seal(section[0], section[3:-4] + revision(3, 0, 0))
    yield seal(section[0], section[3:-4] + descriptor(0x40, bytes(255)) * 4)
    cut_short = section[:dice.between(8, len(section) - 1)]
    yield bytes([section[0], 0x30 | len(cut_short) - 3 >> 8, len(cut_short) - 3 & 0xFF]) + cut_short[3:]


def damaged():
    """A plant with damaged sections and garbage in between; the last one is unfinished."""
    dice = Dice(68)
    plant = plant_sections(dice, plain_bodies(dice), 3, PLAIN_MAP)
    good = [section for name in NEEDED for section in shuffled(dice, plant[name])]
    bad = [each for section in (plant[CDS][0], plant[MMS][0], plant[VCM][1], plant[DCM][0])
           for each in damages(dice, section)]
    bad += [long_filler(0), long_filler(1, 0xFF), long_filler(1022, 0xC4), long_filler(4095, 0x93)]
    foreign = plant_sections(dice, plain_bodies(dice), 3, PLAIN_MAP ^ 0x8000)
    sections = mixed(dice, [good, shuffled(dice, bad), foreign[VCM] + foreign[DCM]])
    unfinished = plant_sections(dice, plain_bodies(dice), 4, PLAIN_MAP)[VCM][0]
    return run_input(PLAIN_MAP, sections + [unfinished[:-9]])


# ------------------------------------------------------------------------ names

NAMES_MAP = 0x3003
FRENCH = b'fra'
NAMED_VERSION = 6
RUSSIAN = '\u041a\u0430\u043d\u0430\u043b %d'


def name_text(language, number):
    """The name of a channel: mostly plain, with effectors, with 16 bits, and with all kinds of blocks."""
    if language == FRENCH:
        return text('Cha\xeene %d' % number)
    if number % 9 == 4:
        return b'\x87' + text('Bold %d' % number) + b'\x88'
    if number % 9 == 6:
        return sixteen_bit(RUSSIAN % number)
    if number % 9 == 8:
        return text('Both ') + sixteen_bit(RUSSIAN % number) + b'\x80' + block(0xA1, b'\x01') + block(4, b'') + b'\x9F'
    return text('Channel %d' % number)


def name_records(language, numbers):
    """Names for the channels of full_channel(): none for one of eleven, and twice for some, the first one right."""
    for number in numbers:
        flag, source = (1, 0x4000 + number) if number % 20 == 7 else (0, 0x1000 + number)
        if number % 11 == 3:
            # Only the other flag has a name under this number.
            yield name_of(1 - flag, source, text('Nobody'))
            continue
        yield name_of(flag, source, name_text(language, number))
        if number % 8 == 0:
            yield name_of(flag, source, text('Too late %d' % number))


def name_sections(dice, language, version, parts):
    """So many sections of names for the channels of plain_bodies(), in their order."""
    records = list(name_records(language, range(2, 2 + PLAIN_CHANNELS)))
    size = -(-len(records) // parts)
    return [section_of_body(dice, NTT, NAMES_MAP, Body(0, records[number * size:(number + 1) * size]), version, number,
                            parts - 1, language) for number in range(parts)]


def named_plant(dice):
    plant = plant_sections(dice, plain_bodies(dice), NAMED_VERSION, NAMES_MAP)
    return [shuffled(dice, plant[name]) for name in NEEDED]


def names():
    """A plant with names in two languages; the names of an older and of a newer version are never complete."""
    dice = Dice(69)
    english = name_sections(dice, ENGLISH, NAMED_VERSION, 4)
    french = name_sections(dice, FRENCH, NAMED_VERSION, 3) + name_sections(dice, FRENCH, 9, 3)
    older, newer = name_sections(dice, ENGLISH, 5, 3)[1:], name_sections(dice, ENGLISH, 7, 4)[:2]
    return run_input(NAMES_MAP, mixed(dice, named_plant(dice) + [
        older + shuffled(dice, english) + english + newer, shuffled(dice, french)]))


def bad_names(dice, version):
    """Sections of names that all are refused, or are in another language; what follows is cut right."""
    good = name_sections(dice, ENGLISH, version, 4)
    for how in sorted(WRONG):
        wrong = Body(0, [name_of(0, 0x1002, text('Right')), name_of(0, 0x1003, wrong_text(dice, how))])
        yield section_of_body(dice, NTT, NAMES_MAP, wrong, version, 0, 0)
    for section in good[:2]:
        yield from damages(dice, section)
    yield reseal(good[0][:7] + b'\x07' + good[0][8:])
    yield reseal(good[0][:9] + b'\x01' + good[0][10:])
    yield seal(0xC3, good[0][3:8])
    yield section_of_body(dice, NTT, NAMES_MAP, Body(0, []), version, 0, 4)
    for language in OTHER_LANGUAGES:
        yield from name_sections(dice, language, version, 4)[:1]
    # The last one never comes.
    yield from good[1:]


def badnames():
    """A plant whose names were good once; the next version has damaged ones and bad text, and never goes live."""
    dice = Dice(70)
    good = name_sections(dice, ENGLISH, NAMED_VERSION, 4)
    bad = shuffled(dice, list(bad_names(dice, NAMED_VERSION + 1)))
    return run_input(NAMES_MAP, mixed(dice, named_plant(dice) + [good + bad]))


def unnamed():
    """The same with no good names at all."""
    dice = Dice(71)
    return run_input(NAMES_MAP, mixed(dice, named_plant(dice) + [shuffled(dice, list(bad_names(dice, 4)))]))


# ------------------------------------------------------------------------ the files

CAPTURES = {'empty': lambda: b'\0\0', 'short': lambda: b'\0', 'example': example, 'full': full,
            'plain': plain, 'grown': grown, 'damaged': damaged, 'names': names, 'badnames': badnames,
            'unnamed': unnamed}


def files():
    """(name of a file, its bytes): the input and the outputs of every capture."""
    for name, make in CAPTURES.items():
        data = make()
        yield name + '.capture', data
        yield name + '.lineup', lineup(data)
        yield name + '.labels', labels(data)


def write(directory):
    os.makedirs(directory, exist_ok=True)
    for name, data in files():
        with open(os.path.join(directory, name), 'wb') as file:
            file.write(data)
    return []


def check(directory):
    """Lines on the files that are missing or different."""
    lines = []
    for name, data in files():
        path = os.path.join(directory, name)
        if not os.path.isfile(path):
            lines.append('%s is missing' % name)
            continue
        with open(path, 'rb') as file:
            if file.read() != data:
                lines.append('%s differs' % name)
    return lines


def main():
    parser = Parser(description='Write captures for lineup and labels, each with what lineup.py and labels.py print.',
                    epilog='Exit: 0 all well, 1 a file is missing or differs, 2 a bad argument.')
    parser.add_argument('directory', metavar='DIR', help='where the captures are')
    parser.add_argument('--check', action='store_true', help='only say which files are missing or different')
    given = parser.parse_args()
    try:
        lines = check(given.directory) if given.check else write(given.directory)
    except OSError as error:
        lines = ['%s: %s' % (error.filename, error.strerror)]
    for line in lines:
        print(line)
    if not lines:
        print('%d captures %s' % (len(CAPTURES), 'as they should be' if given.check else 'written'))
    return 1 if lines else 0


if __name__ == '__main__':
    sys.exit(main())
