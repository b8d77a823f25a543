"""Mofrindi: directed runs for `lineup`: values of single fields, many sections in a run, the most lines.

`lineup` doesn't print the number of a refusal, so what is judged is how many are refused and what goes live.
"""

from generate.directed_runs import LISTED, NONE, in_step, listed_section
from generate.pieces import NUMBERS, descriptor, revision, seal
from generate.plants import Body, application, by125, carriers, digital, mode, name_of, section_of_body, spans
from generate.run_parts import (MAP, channel_line, claim_lines, claim_whole, labels_run, marked_plant, one_run, output)
from generate.sweeps import sweeps
from generate.texts import MOST_NAME, RESERVED, text_of
from generate.trials import shuffled
from program.labels import label_line
from program.receiver import ORDER
from program.section import CDS, DCM, MMS, NTT, VCM
from program.tuning import Digital, ModeRecord

# Marked reserved in Tables 5.7, 5.8 and 5.9 of document 003.
RESERVED_SYSTEMS = (1,) + tuple(range(5, 16))
RESERVED_CODINGS = (2, 4, 6, 10, 12, 13, 14)
RESERVED_FORMATS = tuple(range(25, 32))

IN_A_RUN = 100          # sections of a sweep
PART = 4                # of the longest sweeps one in so many is taken


# ------------------------------------------------------------------ values of a field

def changed(name, at, value):
    """listed_section() with another byte at a place behind byte 3."""
    rest = bytearray(bytes.fromhex(LISTED[name]) + revision(5, 0, 0))
    rest[at] = value
    return seal(NUMBERS[name], rest)


def field_cases():
    """(what, table, place behind byte 3, value, whether it is refused)."""
    for value in range(16):
        yield 'system', MMS, 4, value << 4 | 15, value in RESERVED_SYSTEMS
        yield 'inner coding', MMS, 4, 2 << 4 | value, value in RESERVED_CODINGS
        yield 'channel type', VCM, 13, value, value > 1
        yield 'type of an analogue channel', VCM, 23, 0x10 | value, value > 1
        yield 'video standard', VCM, 27, 0x80 | value, value > 4
    for value in range(32):
        yield 'format', MMS, 5, value, value in RESERVED_FORMATS
        yield 'format, split', MMS, 5, 0x80 | value, value in RESERVED_FORMATS
    for value in (0, 1, 252, 253, 254, 255):
        # Four carriers and two modes.
        yield 'first index', CDS, 1, value, value == 0 or value + 3 > 255
        yield 'first index', MMS, 1, value, value == 0 or value + 1 > 255
    for value in (0, 1, 127, 128, 252, 253, 254, 255):
        yield 'carriers', CDS, 4, value, value == 0 or value + 2 > 255
        yield 'channel count', DCM, 8, value, value & 0x7F == 0
    for value in range(256):
        # A length of two and two bytes stand behind it; behind a single effector they are another block, too long.
        yield 'text mode', NTT, 21, value, value in RESERVED or 0x40 <= value < 0xA0
    for value in (0, 1, 2, 3, 255):
        yield 'length of a block', NTT, 22, value, value != 2
        yield 'name length', NTT, 20, value, value != 4
    for value in (0, 1, 0x40, 0x7F, 0x80, 0x81, 0xFF):
        yield 'flags of a name', NTT, 17, value, value & 0x7F != 0


def field_values(dice):
    """One field of a small plant; the version goes live exactly if the value isn't refused."""
    for what, name, at, value, refused in field_cases():
        sections = [changed(each, at, value) if each == name else listed_section(dice, each)
                    for each in ORDER]
        claims = claim_lines('refused=%d' % refused, '%s=%s' % (name.lower(), 'none' if refused else '5'),
                             *(['channels=0'] if refused and name != NTT else []))
        yield one_run('field values', '%s of %s, byte 0x%02X' % (what, name, value), MAP, sections, claims)


def short_revisions(dice):
    """Bodies of 0 to 2 bytes with descriptors behind them that would make them whole."""
    for name in ORDER:
        front = bytes.fromhex(LISTED[name])
        for said, closing, good in (
                ('0 bytes', '93 00 E5 00 00 00', False), ('1 byte', '93 01 E5 00 00', False),
                ('2 bytes', '93 02 E5 00 00 00', False), ('3 bytes', '93 03 E5 00 00', True),
                ('2 bytes at the end', '93 02 E5 00', False), ('4 bytes', '93 04 E5 00 00 01', True),
                ('3 bytes, then 2', '93 03 E5 00 00 93 02 E5 00', False),
                ('2 bytes, then 3', '93 02 E5 00 93 03 E5 00 00', False),
                ('the same twice', '93 03 E5 00 00 93 03 E5 00 00', False),
                ('two versions', '93 03 E5 00 00 93 03 E6 00 00', False),
                ('number above last', '93 03 E5 01 00', False),
                ('0 of 0, more bytes', '93 05 05 00 00 93 03', True)):
            section = seal(NUMBERS[name], front + bytes.fromhex(closing))
            versions = [5 if good and each == name else 'none' for each in ORDER]
            yield one_run('short revisions', '%s, %s' % (said, name), MAP, [section],
                          claim_whole(output(MAP, 1, 0 if good else 1, versions)))


def swept(dice):
    """The sweeps of section.py's batch, many sections in a run; those whose length says what they have."""
    families = {}
    for item in sweeps():
        if in_step(item.section):
            families.setdefault(item.family, []).append(item.section)
    for family, sections in families.items():
        if family.startswith('sweep: bytes of'):
            sections = sections[dice.below(PART)::PART]
        for start in range(0, len(sections), IN_A_RUN):
            yield one_run(family, 'from %d on' % start, MAP, sections[start:start + IN_A_RUN])


# ------------------------------------------------------------------------ the most

def most_lines(dice):
    """444 channels, as many as four sections hold, each with the longest line; and as many applications.

    All have one name, the longest there is.
    """
    values = ModeRecord(4, 15, 1, 24, 0xFFFFFFF)
    numbers = shuffled(dice, range(3652, 4096))
    longest = text_of(dice, MOST_NAME)
    for said, flag, record in (('digital', 0, lambda n: digital(n, 255, 0xFFFF, 255, 1, 1, source=0xFFFF)),
                               ('applications', 1, lambda n: application(n, 0xFFFF, 1, 1))):
        bodies = {CDS: [Body(255, [carriers(1, 0, by125(8016))])], MMS: [Body(255, [mode(values)])],
                  VCM: [Body(0, [record(n) for n in numbers[part::4]]) for part in range(4)],
                  DCM: [Body(3652, spans('FF FF FF BF'))], NTT: [Body(0, [name_of(flag, 0xFFFF, longest)])]}
        sections = []
        for name in ORDER:
            last = len(bodies[name]) - 1
            sections += [section_of_body(dice, name, MAP, body, 31, number, last)
                         for number, body in enumerate(bodies[name])]
        line = channel_line(4095, Digital(1, 1, 1002000, 0xFFFF, values))
        if said == 'applications':
            line = 'channel=4095 kind=application hidden=1 path=1 application=65535'
        yield one_run('most lines', said, MAP, sections, claim_lines('channels=444', line))
        yield labels_run('most lines', said, MAP, sections,
                         claim_lines('channels=444', label_line(3652, longest), label_line(4095, longest)))


def most_sections(dice):
    """More than 65,536 sections, so that no count of 16 bits holds them; then a plant."""
    count = 65537
    yield one_run('most sections', '%d with L = 0' % count, MAP, [bytes(3)] * count,
                  claim_whole(output(MAP, count, count, NONE)))
    sections = marked_plant(dice, 3) * 70
    yield one_run('most sections', '70 times the same plant', MAP, sections,
                  claim_lines('sections=280', 'refused=0'))


def every_closing_tag(dice):
    """All tags in a closing list, before and behind the revision; only 0x93 is known."""
    tags = [descriptor(tag, b'') for tag in range(256) if tag != 0x93]
    for name in ORDER:
        front = bytes.fromhex(LISTED[name])
        for split in (0, 1, 128, 255):
            closing = b''.join(tags[:split]) + revision(5, 0, 0) + b''.join(tags[split:])
            section = seal(NUMBERS[name], front + closing)
            versions = [5 if each == name else 'none' for each in ORDER]
            yield one_run('closing tags', '%d before, %s' % (split, name), MAP, [section],
                          claim_whole(output(MAP, 1, 0, versions)))


FIELDS = (field_values, short_revisions, swept, most_lines, most_sections, every_closing_tag)
