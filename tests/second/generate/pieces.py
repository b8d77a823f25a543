"""Mofrindi: the dice, and the pieces of bytes that sections are made of.

Everything is drawn from Dice, so a seed gives the same sections everywhere.
Every item carries its family and a detail, and the answer it claims, if any.
"""

import random
from collections import namedtuple

from generate.texts import any_text
from program.section import CDS, DCM, FORMATS, INNER_CODINGS, MMS, NTT, REVISION, SYSTEMS, VCM, crc

TABLES = (CDS, MMS, VCM, DCM, NTT)
NUMBERS = {CDS: 0xC2, MMS: 0xC2, VCM: 0xC4, DCM: 0xC4, NTT: 0xC3}
SUBTYPE = {CDS: 1, MMS: 2, VCM: 0, DCM: 1, NTT: 6}

# claim is the answer the item must get, or None where none is claimed.
Item = namedtuple('Item', 'family detail section claim')


class Dice:
    """Draws from getrandbits alone, which is the same on every version."""

    def __init__(self, seed):
        self.source = random.Random(seed)

    def below(self, limit):
        if limit < 1:
            raise ValueError('nothing to draw from')
        bits = limit.bit_length()
        drawn = self.source.getrandbits(bits)
        while drawn >= limit:
            drawn = self.source.getrandbits(bits)
        return drawn

    def between(self, low, high):
        return low + self.below(high - low + 1)

    def one(self, choices):
        return choices[self.below(len(choices))]

    def bytes(self, count):
        return bytes(self.below(256) for _ in range(count))

    def chance(self, out_of):
        return self.below(out_of) == 0


# ------------------------------------------------------------ pieces of bytes

def seal(number, rest, top=0x30, length=None):
    """Table number, length, rest (byte 3 up to the CRC), right CRC.

    top is the upper half of byte 1; length overrides the right L.
    """
    if length is None:
        length = len(rest) + 4
    return close(bytes([number, top & 0xF0 | length >> 8 & 0x0F, length & 0xFF])
                 + bytes(rest))


def close(front):
    return front + crc(front).to_bytes(4, 'big')


def reseal(section):
    """The same section with the CRC put right, nothing else."""
    return close(bytes(section[:-4]))


def descriptor(tag, body):
    return bytes([tag, len(body)]) + bytes(body)


def revision(version, number, last):
    return descriptor(REVISION, bytes([0xE0 | version, number, last]))


def two(value):
    return bytes([value >> 8, value & 0xFF])


def any_descriptor(dice, closing):
    """closing: a tag that doesn't count there, so any but the revision's."""
    tag = dice.below(256)
    while closing and tag == REVISION:
        tag = dice.below(256)
    if not closing and dice.chance(6):
        tag = REVISION
    size = dice.below(20) if dice.chance(8) else dice.below(5)
    return descriptor(tag, dice.bytes(size))


def cds_record(dice, carriers):
    return bytes([carriers]) + two(dice.below(1 << 16) & 0xBFFF) + dice.bytes(2)


def mms_record(dice):
    first = dice.one(SYSTEMS) << 4 | dice.one(INNER_CODINGS)
    second = dice.below(2) << 7 | dice.one(FORMATS)
    return bytes([first, second, dice.below(16)]) + dice.bytes(3)


def channel_record(dice, transport=None, application=None):
    if transport is None:
        transport = dice.below(2)
    if application is None:
        application = 1 if dice.chance(4) else 0
    flags = application << 7 | dice.below(2) << 5 | transport << 4 | dice.below(2)
    front = two(dice.below(4096)) + bytes([flags]) + dice.bytes(3)
    if transport == 0:
        return front + dice.bytes(3)
    return front + bytes([dice.below(2) << 7 | dice.below(5), 0, 0])


def name_record(dice, most):
    """With a name of at most so many bytes."""
    return named(dice.below(2), dice.below(1 << 16), any_text(dice, most))


def named(application, number, name):
    return bytes([application << 7]) + two(number) + bytes([len(name)]) + name


# --------------------------------------------------------------------- bases

# Small sections of each table, from byte 3 up to the CRC.
BASES = {
    CDS: '00 FD 01 01 02 80 30 81 C8 01 40 01 AA 93 03 E5 01 02 41 00',
    MMS: '00 07 01 02 2F 08 00 4D 29 AD 01 40 01 AA 93 03 E5 01 02 41 00',
    VCM: '00 00 12 34 20 00 00 00 00 00 02 00 03 00 12 34 02 00 03 01 01 40 00 '
         '00 08 10 12 35 02 80 00 00 00 93 03 E5 01 02',
    DCM: '00 01 12 34 0F F0 02 83 05 93 03 E5 01 02 41 00',
    NTT: '00 65 6E 67 06 02 00 12 34 09 83 00 02 4F 6E 3F 02 04 16 01 40 00 '
         '80 00 07 04 A0 00 10 00 00 93 03 E5 01 02',
}
REV = revision(5, 0, 1)


def base(table):
    return seal(NUMBERS[table], bytes.fromhex(BASES[table]))
