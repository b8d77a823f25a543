"""Mofrindi: every value of the small fields, one section each.

The sweeps are the same for every seed, and they claim no answer.
"""

from generate.drafts import fill, make
from generate.pieces import (BASES, NUMBERS, REV, TABLES, Dice, Item, base, descriptor, named, reseal, revision, seal,
                             two)
from generate.texts import ENGLISH, MOST_NAME, SIXTEEN_BIT
from program.section import REVISION


# -------------------------------------------------------------------- sweeps

MODE = bytes.fromhex('2F 08 00 4D 29 AD')
CARRIER = bytes.fromhex('02 80 30 81 C8')
VCM_HEAD = bytes(6)


def long_base(table):
    """The base with a closing list that takes it beyond 40 bytes."""
    return seal(NUMBERS[table], bytes.fromhex(BASES[table])
                + descriptor(0x42, bytes(20)))


def c2(subtype, first, count, rest):
    return seal(0xC2, bytes([0, first, count, subtype]) + rest)


def vcm(count, rest, included=0):
    return seal(0xC4, b'\x00\x00\x12\x34' + bytes([included << 5])
                + VCM_HEAD[1:] + bytes([count]) + rest)


def dcm(first, ranges, closing=REV):
    return seal(0xC4, b'\x00\x01\x12\x34' + two(first) + bytes([len(ranges)])
                + bytes(ranges) + closing)


def ntt(count, rest):
    return seal(0xC3, b'\x00' + ENGLISH + bytes([6, count]) + rest)


def one_name(name, behind=b'\x00' + REV):
    """A section with a record of this name; behind it an empty list and the revision."""
    return ntt(1, named(0, 0x1234, bytes(name)) + behind)


def sweep(name, detail, section):
    return Item('sweep: ' + name, detail, section, None)


def sweep_bytes():
    """Every byte of each base, all values, CRC put right."""
    for table in TABLES:
        right = base(table)
        for at in range(len(right) - 4):
            for value in range(256):
                changed = bytearray(right)
                changed[at] = value
                yield sweep('bytes of a %s section' % table,
                            'byte %d is 0x%02X' % (at, value), reseal(changed))


def sweep_bits():
    """Every bit of each base, the CRC left as it was."""
    for table in TABLES:
        right = base(table)
        for at in range(len(right)):
            for k in range(8):
                changed = bytearray(right)
                changed[at] ^= 1 << k
                yield sweep('bits, CRC not put right',
                            '%s byte %d bit %d' % (table, at, k), bytes(changed))


def sweep_modes():
    """Bytes 0 and 1 of an MMS record, here the second one."""
    for value in range(256):
        for place in (0, 1):
            record = bytearray(MODE)
            record[place] = value
            yield sweep('MMS record byte %d' % place, '0x%02X' % value,
                        c2(2, 9, 2, MODE + b'\x00' + bytes(record) + b'\x00' + REV))


def sweep_flags():
    """Flag byte of a channel record, over bytes right and wrong for analogue."""
    for value in range(256):
        for tail in (b'\x80\x00\x00', b'\x12\x34\x01'):
            record = b'\x00\x03' + bytes([value]) + b'\x12\x34\x02' + tail
            yield sweep('channel flags', '0x%02X before %s' % (value, tail.hex()),
                        vcm(1, record + REV))


def sweep_standards():
    for value in range(256):
        for flags in (0x10, 0x90):
            record = b'\x00\x08' + bytes([flags]) + b'\x12\x35\x02' + bytes([value, 0, 0])
            yield sweep('byte 6 of an analogue record', '0x%02X, flags 0x%02X'
                        % (value, flags), vcm(1, record + REV))


def sweep_ranges():
    for first in (0, 3968, 3969, 3970, 4094, 4095):
        for value in range(256):
            yield sweep('DCM range byte', '0x%02X at %d' % (value, first),
                        dcm(first, [value]))
    for value in range(256):
        yield sweep('DCM range byte', '0x%02X behind another' % value,
                    dcm(4000, [0x85, value]))


def sweep_carriers():
    """First index and carriers with the last index around 255."""
    for count in range(256):
        for first in (255 - count, 256 - count, 257 - count):
            if 0 <= first <= 255:
                record = bytes([count]) + CARRIER[1:] + b'\x00'
                yield sweep('carriers at the border', '%d from %d' % (count, first),
                            c2(1, first, 1, record + REV))
    for one in range(1, 256):
        for other in (254 - one, 255 - one, 256 - one):
            if 0 <= other <= 255:
                records = (bytes([one]) + CARRIER[1:] + b'\x00'
                           + bytes([other]) + CARRIER[1:] + b'\x00')
                yield sweep('carriers of two records at the border',
                            '%d and %d from 1' % (one, other), c2(1, 1, 2, records + REV))


def sweep_mode_indices():
    for first in range(248, 256):
        for count in range(10):
            yield sweep('MMS indices at the border', '%d from %d' % (count, first),
                        c2(2, first, count, (MODE + b'\x00') * count + REV))


def sweep_text_modes():
    """Every mode byte with small lengths: as many bytes as it says, one fewer, one more, and no length."""
    for mode in range(256):
        yield sweep('mode byte', '0x%02X alone' % mode, one_name([mode]))
        for length in range(4):
            for size in {max(length - 1, 0), length, length + 1}:
                yield sweep('mode byte', '0x%02X, length %d, %d bytes' % (mode, length, size),
                            one_name([mode, length] + [0x41] * size))
                yield sweep('mode byte behind a block', '0x%02X, length %d, %d bytes' % (mode, length, size),
                            one_name([0, 1, 0x42, mode, length] + [0x41] * size))


def sweep_text_lengths():
    """Every length of a block of 8 bits, of 16 bits, and of an effector's parameters, filled exactly."""
    for mode in (0, SIXTEEN_BIT, 0xA0):
        for length in range(MOST_NAME - 1):
            yield sweep('length of a block', '0x%02X, %d bytes' % (mode, length),
                        one_name([mode, length] + [0x41] * length))


# An effector, mode zero, 16 bits, an effector with parameters, and a block without bytes.
MIXED = bytes.fromhex('83 00 03 4F 6E 65 3F 04 04 16 04 17 A5 02 01 02 10 00 84')


def sweep_names():
    """Every cut inside a record and what follows it, and every length of its name over the same bytes."""
    right = named(1, 7, MIXED) + b'\x01\x40\x01\xAA'
    for size in range(len(right) + len(REV) + 1):
        yield sweep('cut inside names', '%d bytes' % size, ntt(1, (right + REV)[:size]))
        yield sweep('cut inside names', '%d bytes of the second' % size, ntt(2, right + (right + REV)[:size]))
        yield sweep('cut inside names', '%d bytes, then the revision' % size, ntt(1, right[:size] + REV))
    for length in range(256):
        changed = right[:3] + bytes([length]) + right[4:]
        yield sweep('name length', '%d over %d' % (length, len(MIXED)), ntt(1, changed + REV))
        yield sweep('name length', '%d over zeros' % length, ntt(1, right[:3] + bytes([length]) + bytes(301) + REV))
    for count in range(256):
        yield sweep('record count of names', '%d for 2' % count, ntt(count, right + right + REV))
    for flags in range(256):
        yield sweep('flags of a name', '0x%02X' % flags, ntt(1, bytes([flags]) + right[1:] + REV))
        yield sweep('flags of a name', '0x%02X, no text' % flags, ntt(1, bytes([flags, 0, 7, 0, 0]) + REV))


def sweep_revision():
    for number in range(256):
        for last in (number - 1, number, number + 1):
            if 0 <= last <= 255:
                yield sweep('revision number and last', '%d of %d' % (number, last),
                            dcm(0, [], revision(5, number, last)))
    borders = (0, 1, 2, 3, 4, 5, 127, 128, 254, 255)
    for number in borders:
        for last in borders:
            yield sweep('revision number and last', '%d of %d' % (number, last),
                        c2(1, 1, 0, revision(31, number, last)))
    for value in range(256):
        yield sweep('revision version byte', '0x%02X' % value,
                    dcm(0, [], descriptor(REVISION, bytes([value, 0, 0]))))
    for table in TABLES:
        front = bytes.fromhex(BASES[table])
        front = front[:front.index(b'\x93\x03\xE5')]
        for size in tuple(range(6)) + (254, 255):
            for start in (b'\xE5\x01\x01', b'\xE5\x02\x01'):
                body = (start + bytes(252))[:size]
                for behind in (b'', b'\x41\x00'):
                    yield sweep('revision body length', '%d, %s' % (size, table),
                                seal(NUMBERS[table], front
                                     + descriptor(REVISION, body) + behind))


def sweep_tags():
    record = bytes.fromhex('00 03 00 12 34 02 00 03 01')
    for tag in range(256):
        extra = descriptor(tag, b'\x05\x00\x00')
        yield sweep('closing tag', '0x%02X before' % tag, dcm(0, [], extra + REV))
        yield sweep('closing tag', '0x%02X behind' % tag, dcm(0, [], REV + extra))
        yield sweep('closing tag', '0x%02X alone' % tag, dcm(0, [], extra))
        inner = b'\x01' + extra + REV
        yield sweep('record list tag', '0x%02X, CDS' % tag, c2(1, 1, 1, CARRIER + inner))
        yield sweep('record list tag', '0x%02X, MMS' % tag, c2(2, 1, 1, MODE + inner))
        yield sweep('record list tag', '0x%02X, VCM' % tag, vcm(1, record + inner, 1))
        yield sweep('record list tag', '0x%02X, NTT' % tag, one_name(MIXED, inner))


def sweep_short():
    """Total lengths 0 to 40: cut, with length and CRC put right or not."""
    for table in TABLES:
        right = long_base(table)
        for total in range(41):
            cut = right[:total]
            detail = '%d bytes, %s' % (total, table)
            yield sweep('short, only cut', detail, cut)
            if total < 3:
                continue
            length = bytearray(cut)
            length[1:3] = two(0x3000 | total - 3)
            yield sweep('short, length put right', detail, bytes(length))
            if total < 7:
                continue
            yield sweep('short, CRC put right', detail, reseal(cut))
            yield sweep('short, length and CRC put right', detail, reseal(length))


def sweep_long():
    """L 1,019 to 1,025 against totals 1,022 to 1,028, CRC right."""
    dice = Dice(1)
    for table in TABLES:
        for total in range(1022, 1029):
            draft = fill(dice, make(dice, table, 4, 'empty', others=0), total)
            for length in range(1019, 1026):
                yield sweep('around 1,024 bytes', 'L %d in %d bytes, %s'
                            % (length, total, table),
                            seal(draft.number, draft.rest(), length=length))


def sweep_headers():
    """Header fields in sections that end in or right behind the header."""
    for value in range(256):
        shown = '0x%02X' % value
        byte = bytes([value])
        for number in (0xC2, 0xC3, 0xC4):
            yield sweep('protocol byte', shown + ' in 8 bytes', seal(number, byte))
        yield sweep('table number', shown, seal(value, bytes(4) + REV))
        yield sweep('medium and subtype', shown + ' of 0xC2, no more',
                    seal(0xC2, b'\x00\x01\x00' + byte))
        yield sweep('medium and subtype', shown + ' of 0xC2, index 0, zero bits',
                    seal(0xC2, b'\x20\x00\x00' + byte, 0xF0))
        yield sweep('medium and subtype', shown + ' of 0xC2, revision',
                    seal(0xC2, b'\x00\x01\x00' + byte + REV))
        for size in (0, 1, 2):
            yield sweep('medium and subtype', shown + ' of 0xC4, %d bytes more' % size,
                        seal(0xC4, b'\x00' + byte + bytes(size)))
        for behind in (b'', b'\x00', b'\x00' + REV):
            yield sweep('medium and subtype', shown + ' of 0xC3, %d bytes more' % len(behind),
                        seal(0xC3, b'\x00' + ENGLISH + byte + behind))
        yield sweep('first index', shown, c2(1 + value % 2, value, 0, REV))
    for table in TABLES:
        rest = bytes.fromhex(BASES[table])
        for top in range(16):
            for size in (1, 2, 3, 4, 5, len(rest)):
                yield sweep('upper half of byte 1', '0x%X, %d bytes, %s'
                            % (top, size + 7, table),
                            seal(NUMBERS[table], rest[:size], top << 4))
                yield sweep('upper half of byte 1', '0x%X, %d bytes, byte 3, %s'
                            % (top, size + 7, table),
                            seal(NUMBERS[table], b'\x20' + rest[1:size], top << 4))


def sweeps():
    for one_sweep in (sweep_bytes, sweep_bits, sweep_modes, sweep_flags,
                      sweep_standards, sweep_ranges, sweep_carriers,
                      sweep_mode_indices, sweep_text_modes, sweep_text_lengths,
                      sweep_names, sweep_revision, sweep_tags,
                      sweep_short, sweep_long, sweep_headers):
        for item in one_sweep():
            yield item
