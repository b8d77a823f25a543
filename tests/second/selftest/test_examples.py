"""Mofrindi: self test of section.py.

Run with: python3 tests/second/selftest/test_examples.py

The examples C1 to C12 of document 01 as far as they concern reading, each put
into a whole section, and sections whose answers follow by hand from "Order"
and "Numbers of refusal" in document 01.  Prints one line; exit 1 if any is
wrong.
"""

import os
import sys

sys.dont_write_bytecode = True
sys.path.insert(0, os.path.dirname(os.path.dirname(os.path.abspath(__file__))))

from program import section as reading


def bitwise_crc(data):
    """A CRC of its own, bit by bit, so that the table isn't its own judge."""
    register = 0xFFFFFFFF
    for byte in data:
        for place in range(7, -1, -1):
            feedback = (register >> 31) ^ (byte >> place & 1)
            register = (register << 1) & 0xFFFFFFFF
            if feedback:
                register ^= 0x04C11DB7
    return register


def whole(table, rest, byte1=0x30, length=None, crc=True):
    """A section from its table number and the hex of bytes 3 up to the CRC.

    byte1 is the upper half of byte 1; length overrides L, crc=False spoils it.
    """
    rest = bytes.fromhex(rest.replace('|', ' '))
    size = len(rest) + 4 if length is None else length
    front = bytes([table, byte1 | size >> 8, size & 0xFF]) + rest
    value = bitwise_crc(front) if crc else bitwise_crc(front) ^ 0x00000100
    return front + value.to_bytes(4, 'big')


REV = '93 03 E5 00 01'                      # version 5, 0 of 1
CHANNEL = '00 03 00 12 34 02 00 03 01'      # C9
ANALOGUE = '00 08 10 12 35 02 80 00 00'     # C10
MODE = '2F 08 00 4D 29 AD'                  # C12
C1 = '02 80 30 81 C8'
VCM_HEAD = '00 00 00 00 00 00 '             # and the record count
VCM_LISTS = '20 00 00 00 00 00 '            # descriptors-included


def cds(rest, first='01', count='01', **more):
    return whole(0xC2, '00 %s %s 01 %s' % (first, count, rest), **more)


def mms(rest, first='01', count='01', **more):
    return whole(0xC2, '00 %s %s 02 %s' % (first, count, rest), **more)


def vcm(rest, **more):
    return whole(0xC4, '00 00 12 34 ' + rest, **more)


def dcm(rest, **more):
    return whole(0xC4, '00 01 12 34 ' + rest, **more)


def one_carrier(record, **more):
    return cds(record + ' 00 ' + REV, **more)


def one_mode(record, **more):
    return mms(record + ' 00 ' + REV, **more)


def one_channel(record):
    return vcm(VCM_HEAD + '01 ' + record + REV)


def closing(descriptors):
    """A DCM section with no ranges and this closing list."""
    return dcm('00 00 00 ' + descriptors)


# (what, section, answer)
ANSWERS = [
    # The examples of document 01.
    ('C1', one_carrier(C1), 0),
    ('C2', one_carrier('01 00 00 15 18'), 0),
    ('C3 reads', one_carrier('01 00 00 15 17'), 0),
    ('C4', one_carrier('01 00 00 9F 50'), 0),
    ('C4, 51', one_carrier('01 00 00 9F 51'), 0),
    ('C5, carriers 0', one_carrier('00 80 30 81 C8'), 10),
    ('C5, zero bit', one_carrier('02 C0 30 81 C8'), 9),
    ('C6 at 1', one_carrier('FF BF FF FF FF'), 0),
    ('C6 at 2', one_carrier('FF BF FF FF FF', first='02'), 10),
    ('C7', dcm('00 02 03 83 05 81' + REV), 0),
    ('C8, 81', dcm('0F FF 01 81' + REV), 0),
    ('C8, 82', dcm('0F FF 01 82' + REV), 10),
    ('C9', one_channel(CHANNEL), 0),
    ('C10', one_channel(ANALOGUE), 0),
    ('C11', closing('93 03 E5 00 01'), 0),
    ('C11, longer body', closing('93 05 E5 00 01 AA BB'), 0),
    ('C11, reserved bits 0', closing('93 03 05 00 01'), 0),
    ('C11, number above last', closing('93 03 E5 02 01'), 11),
    ('C12', one_mode(MODE), 0),

    # 3: the frame.
    ('no bytes', b'', 3),
    ('two bytes', b'\xC2\x30', 3),
    ('seven bytes, 3 + L', whole(0xC2, ''), 3),
    ('eight bytes, table 0', whole(0x00, '00'), 4),
    ('L one too large', one_mode(MODE, length=21), 3),
    ('L one too small', one_mode(MODE, length=19), 3),
    ('the right L of these two', one_mode(MODE, length=20), 0),
    ('a byte behind', one_mode(MODE) + b'\x00', 3),
    ('1,024 bytes', closing('00 FF' + '00' * 255 + '00 FF' + '00' * 255 +
                            '00 FF' + '00' * 255 + '00 E8' + '00' * 232 + REV), 0),
    ('1,025 bytes', closing('00 FF' + '00' * 255 + '00 FF' + '00' * 255 +
                            '00 FF' + '00' * 255 + '00 E9' + '00' * 233 + REV), 3),
    ('L wrong and table wrong', whole(0xC1, '00', length=6), 3),

    # 4, 5, 6 by number.
    ('table 0xC1', whole(0xC1, '00 00 00 00' + REV), 4),
    ('table 0xC3 is one that is read', whole(0xC3, '00 00 00 00' + REV), 7),
    ('table wrong and CRC wrong', whole(0xC5, '00 00 00 00' + REV, crc=False), 4),
    ('CRC wrong', one_channel(CHANNEL)[:-1] + b'\x00', 5),
    ('CRC wrong, protocol 1', whole(0xC4, '01', crc=False), 5),
    ('protocol 1 in 8 bytes', whole(0xC4, '01'), 6),
    ('protocol 31, zero bits, medium', whole(0xC4, 'FF 77'), 6),
    ('reserved bits of byte 1 off', one_mode(MODE, byte1=0x00), 0),

    # 7, and 8 standing for it.
    ('0xC2 subtype 0', whole(0xC2, '00 01 00 00' + REV), 7),
    ('0xC2 subtype 3', whole(0xC2, '00 01 00 03' + REV), 7),
    ('0xC4 subtype 2', whole(0xC4, '00 02 00 00' + REV), 7),
    ('0xC4 medium 1', whole(0xC4, '00 10 00 00' + REV), 7),
    ('0xC2, 8 bytes', whole(0xC2, '00'), 8),
    ('0xC2, 10 bytes, index 0, zero bits', whole(0xC2, 'E0 00 01', byte1=0xC0), 8),
    ('0xC4, 8 bytes, zero bits', whole(0xC4, 'E0', byte1=0xC0), 8),
    ('0xC4, no map number, subtype 2', whole(0xC4, '00 02'), 7),
    ('0xC4, no map number, zero bits', whole(0xC4, '20 01 12', byte1=0x70), 8),
    ('7 before the zero bits', whole(0xC4, '80 0F 12 34', byte1=0xF0), 7),
    ('7 before first index 0', whole(0xC2, '00 00 00 04'), 7),

    # The header whole, before what follows.
    ('zero bit of byte 1, no head', whole(0xC4, '00 01 12 34', byte1=0x40), 9),
    ('zero bit of byte 3, no head', whole(0xC4, '20 00 12 34'), 9),
    ('no head at all', whole(0xC4, '00 00 12 34'), 8),
    ('zero bit of byte 1, index 0', whole(0xC2, '00 00 01 01', byte1=0xB0), 9),
    ('index 0, no record', whole(0xC2, '00 00 01 01'), 10),
    ('index 0, no record wanted', whole(0xC2, '00 00 00 02' + REV), 10),
    ('no record, none wanted', whole(0xC2, '00 FF 00 02' + REV), 0),

    # Heads.
    ('DCM head short, zero bits', dcm('F0 00'), 8),
    ('DCM head zero bit of the length', dcm('00 00 80' + REV), 9),
    ('DCM head zero bits, no range', dcm('10 00 05'), 9),
    ('DCM no range', dcm('00 00 01'), 8),
    ('VCM head short, zero bits', vcm('FF FF 00 00 00 00'), 8),
    ('VCM head zero bit, no record', vcm('01 00 00 00 00 00 01'), 9),
    ('VCM head splice and time', vcm('00 80 FF FF FF FF 00' + REV), 0),
    ('VCM head zero bit behind splice', vcm('00 01 00 00 00 00 00' + REV), 9),

    # Records whole: 8 before 9 before 10.
    ('CDS record short, carriers 0', cds('00 C0 30 81'), 8),
    ('CDS record zero bit and carriers 0', cds('00 C0 30 81 C8'), 9),
    ('CDS record zero bit and index 256', cds('02 40 30 81 C8', first='FF'), 9),
    ('CDS record carriers 0, no count', cds('00 80 30 81 C8'), 10),
    ('CDS record, no descriptor count', cds(C1), 8),
    ('CDS two records to 255', cds(C1 + '00' + C1 + '00' + REV, 'FC', '02'), 0),
    ('CDS two records to 256', cds(C1 + '00' + C1 + '00' + REV, 'FD', '02'), 10),
    ('CDS second at 256, short', cds('FF 00 00 00 00 00 01 00 00 00', '01', '02'), 8),
    ('MMS second at 256, zero bit', mms(MODE + '00 2F 28 00 4D 29 AD 00' + REV,
                                        'FF', '02'), 9),
    ('MMS first record zero bit, second at 256',
     mms('2F 48 00 4D 29 AD 00' + MODE + '00' + REV, 'FF', '02'), 9),
    ('MMS second at 256', mms(MODE + '00' + MODE + '00' + REV, 'FF', '02'), 10),
    ('MMS first record list short, second at 256', mms(MODE + '01 00', 'FF', '02'), 8),
    ('MMS system 1', one_mode('1F 08 00 4D 29 AD'), 10),
    ('MMS system 3', one_mode('3F 08 00 4D 29 AD'), 0),
    ('MMS system 5', one_mode('5F 08 00 4D 29 AD'), 10),
    ('MMS inner 14', one_mode('2E 08 00 4D 29 AD'), 10),
    ('MMS format 24, split', one_mode('2F 98 0F FF FF FF'), 0),
    ('MMS format 25', one_mode('2F 19 00 4D 29 AD'), 10),
    ('MMS zero bits over the symbol rate', one_mode('1E 1F 10 4D 29 AD'), 9),
    ('VCM record type 2', one_channel('00 03 02 12 34 02 00 03 01'), 10),
    ('VCM record type 2, zero bit', one_channel('00 03 42 12 34 02 00 03 01'), 9),
    ('VCM record type 2, short', vcm(VCM_HEAD + '01 F0 03 42 12 34 02 00 03'), 8),
    ('VCM record type 2, last zero byte', one_channel('00 03 12 12 34 02 85 00 01'), 9),
    ('VCM record standard 5', one_channel('00 03 10 12 34 02 85 00 00'), 10),
    ('VCM record standard 4, application', one_channel('00 03 90 12 34 00 04 00 00'), 0),
    ('VCM record standard 5, application', one_channel('00 03 90 12 34 00 05 00 00'), 10),
    ('VCM record digital, the same bytes', one_channel('00 03 80 12 34 00 05 00 01'), 0),
    ('VCM fewer records than counted', vcm(VCM_HEAD + '02' + CHANNEL), 8),
    ('VCM 10 in front of 9', vcm(VCM_HEAD + '02 00 03 0F 00 00 00 00 00 00'
                                 '10 03 00 00 00 00 00 00 00' + REV), 10),
    ('VCM list, no count', vcm(VCM_LISTS + '01' + CHANNEL), 8),
    ('VCM list of none', vcm(VCM_LISTS + '01' + CHANNEL + '00' + REV), 0),
    ('VCM list with 0x93', vcm(VCM_LISTS + '01' + CHANNEL + '01 93 00' + REV), 0),
    ('VCM 0x93 only in the record', vcm(VCM_LISTS + '01' + CHANNEL + '01' + REV), 11),
    ('VCM list short by one', vcm(VCM_LISTS + '01' + CHANNEL + '01 40 02 00'), 8),

    # Range bytes.
    ('DCM count 0', dcm('00 00 01 80' + REV), 10),
    ('DCM count 0, next not there', dcm('00 00 02 00'), 10),
    ('DCM next not there', dcm('00 00 02 81'), 8),
    ('DCM not defined, past 4095', dcm('0F FE 02 01 02' + REV), 10),
    ('DCM to 4095 exactly', dcm('0F 02 02 7F FF' + REV), 0),
    ('DCM behind 4095', dcm('0F FF 02 81 01' + REV), 10),
    ('DCM no ranges at 4095', dcm('0F FF 00' + REV), 0),

    # The closing list and 11, judged last.
    ('no closing list', closing(''), 11),
    ('a tag alone', closing('93'), 8),
    ('a tag alone behind the revision', closing(REV + '00'), 8),
    ('body short by one', closing(REV + '00 02 00'), 8),
    ('number above last, then 8', closing('93 03 E5 02 01 40 01'), 8),
    ('revision of 2 bytes, then 8', closing('93 02 E5 00 40'), 8),
    ('revision of 2 bytes', closing('93 02 E5 00'), 11),
    ('revision of 0 bytes', closing('93 00'), 11),
    ('revision twice', closing(REV + REV), 11),
    ('revision twice, the second short', closing(REV + '93 00'), 11),
    ('revision behind others', closing('00 00 FF 01 93' + REV), 0),
    ('revision inside another body', closing('40 05' + REV), 11),
    ('number and last 255', closing('93 03 00 FF FF'), 0),
    ('10 and no revision', dcm('00 00 01 00'), 10),
]


def khz_of(record):
    content = reading.read(one_carrier(record))
    return [reading.carrier_khz(each, k) for each in content.records
            for k in range(each.count)]


def content_of(section, names):
    record = reading.read(section).records[0]
    return tuple(getattr(record, name) for name in names.split())


def revision_of(section):
    content = reading.read(section)
    return content.version, content.number, content.last


# (what, got, wanted): what was read, not only that it reads.
CONTENTS = [
    ('CRC of 123456789', reading.crc(b'123456789'), 0x0376E6E7),
    ('CRC bit by bit', bitwise_crc(b'123456789'), 0x0376E6E7),
    ('C1 kHz', khz_of(C1), [57000, 63000]),
    ('C2 kHz', khz_of('01 00 00 15 18'), [54000]),
    ('C3 kHz', khz_of('01 00 00 15 17'), [53990]),
    ('C4 kHz', khz_of('01 00 00 9F 50'), [1002000]),
    ('C4 kHz, 51', khz_of('01 00 00 9F 51'), [1002125]),
    ('C6 kHz', khz_of('FF BF FF FF FF')[254], 524256125),
    ('C7 ranges', reading.read(dcm('00 02 03 83 05 81' + REV)).records,
     [(2, 4, 1), (5, 9, 0), (10, 10, 1)]),
    ('C9 record', content_of(one_channel(CHANNEL),
                             'number application type source carrier program mode'),
     (3, 0, 0, 0x1234, 2, 3, 1)),
    ('C10 record', content_of(one_channel(ANALOGUE),
                              'number transport source carrier scrambled standard'),
     (8, 1, 0x1235, 2, 1, 0)),
    ('C11 revision', [revision_of(closing(text)) for text in
                      ('93 03 E5 00 01', '93 05 E5 00 01 AA BB', '93 03 05 00 01')],
     [(5, 0, 1)] * 3),
    ('C12 record', content_of(one_mode(MODE), 'index system inner split format symbols'),
     (1, 2, 15, 0, 8, 5056941)),
    ('indices over records', [each.index for each in reading.read(
        cds(C1 + '00' + C1 + '00' + REV, '09', '02')).records], [9, 11]),
    ('map number', reading.read(closing(REV)).map_number, 0x1234),
    ('no map number', reading.read(one_mode(MODE)).map_number, None),
    ('closing list begins', reading.read(closing(REV)).closing_start, 10),
    ('find first of two', reading.find(closing('40 00 41 01 07 41 02 08 09' + REV), 0x41),
     ('there', 14, 1)),
    ('find an empty body', reading.find(closing('40 00' + REV), 0x40), ('there', 12, 0)),
    ('find the revision', reading.find(closing('40 00' + REV), 0x93), ('there', 14, 3)),
    ('find nothing', reading.find(closing('40 01 42' + REV), 0x42), ('none',)),
    ('find not in a record list', reading.find(
        vcm(VCM_LISTS + '01' + CHANNEL + '01 42 00' + REV), 0x42), ('none',)),
    ('find refused', reading.find(closing(''), 0x42), ('refused', 11)),
]


def report(tried):
    """Prints the (what, got, wanted) that are wrong; the exit status."""
    wrong = [each for each in tried if each[1] != each[2]]
    for what, got, wanted in wrong[:20]:
        print('wrong: %s: got %.200s, wanted %.200s' % (what, got, wanted))
    print('%d examples, %d wrong' % (len(tried), len(wrong)))
    return 1 if wrong else 0


def main():
    return report([(what, reading.check(section), wanted) for what, section, wanted in ANSWERS] + CONTENTS)


if __name__ == '__main__':
    sys.exit(main())
