"""Mofrindi: reading of one section, refusals 3 to 11, a second implementation.

Written from document 01 (the rules), document 003 (the layouts) and request
2026-01 of document 02 (names).  Names in quotation marks are headings or words
of document 01.

Readings
--------
Places where the documents leave more than one reading, and the one taken here:

 1. Medium and subtype not there ("where a field isn't there 8 stands for its
    check"): the place of check 7 is byte 6 for 0xC2 and byte 4 for 0xC4.  If
    the CRC begins at or before that byte, the answer is 8, whatever the zero
    bits of bytes 1 and 3 are.
 2. The header of 0xC2 and 0xC4 is bytes 0 to 6: it takes in the map number.  If byte 4
    is there and the map number isn't whole, 7 is judged first, then 8, and
    only then the zero bits of bytes 1 and 3 (9): the header is "taken whole:
    8 before 9 before 10".
 3. The structure's head (3 bytes DCM, 7 bytes VCM) is a thing of its own behind
    the header: zero bits of bytes 1 and 3 come before a head that isn't there.
 4. First index 0 belongs to the header of 0xC2 (after its zero bits, before any
    record) and is refused also when the record count is 0.
 5. "An index above 255" belongs to the record that takes the index, not to the
    header: it is judged at that record, after the record's 8 and 9.  The index
    that would come next, behind the last record, may be 256.
 6. Record count 0 and DCM data length 0 read right, although 003 gives ranges
    1-255 and 1-127: document 01 wins on limits and its list for 10 doesn't name
    them.  The same holds for spacing 0 with several carriers, symbol rate 0,
    application number 0, carrier and mode reference 0, programme 0.
 7. "Channel count 0" in 10 is the count of a DCM range byte only.
 8. Transmission system 3 ("Defined for use in other systems", Table 5.7) is
    taken as assigned: it isn't marked reserved.  Value 0 (unknown) of system
    and format is assigned too.  Systems 1 and 5 to 15 are marked reserved.
 9. The lower half of a channel record goes by the transport bit alone: zero
    bits and video standard are judged for transport 1 also in an application
    channel, and never for transport 0.
10. A DCM range past 4095 is refused whether it is range-defined or not.
11. Descriptors-included 1 with every descriptor count 0 reads right, although
    003 says "one or more record-level descriptors are present".
12. "Runs into the CRC" is every part that doesn't end at or before the first
    CRC byte, also if it would run past the end of the section.  A single byte
    left in the closing list is a descriptor that runs into the CRC.
13. 11 is judged after the whole closing list was walked, so a later descriptor
    that runs into the CRC gives 8 even if a revision descriptor before it is
    wrong.  "Twice" is two or more, whatever their bodies are.
14. A last number above 3 reads right here; 12 belongs to the receiver.
15. The public question shows the body: start is the place of the first body
    byte in the section, length may be 0.  0x93 is answered like any other tag.
16. The header of 0xC3 is bytes 0 to 7; its medium and subtype stand in byte 7,
    behind the language, so a section of 8 to 11 bytes is 8.  The record count
    is the structure's head, a thing of its own, and 0 reads right.
17. A record of names is taken whole, its name too: 8 if the name runs into the
    CRC, then the seven zero bits, then the text (10).  Its descriptor count
    always follows.  A name of no bytes is wrong text; the text is text.py's.
18. Every language reads right here; which one is ours the receiver says.
"""

from collections import namedtuple

from program import text

CDS, MMS, VCM, DCM, NTT = 'CDS', 'MMS', 'VCM', 'DCM', 'NTT'

Refusal = namedtuple('Refusal', 'number')
# map_number is None but for 0xC4, language but for 0xC3; closing_start is the
# place of the closing list.
Content = namedtuple('Content', 'table map_number language version number last '
                                'records closing closing_start')
# start is the place of the first body byte in the section.
Descriptor = namedtuple('Descriptor', 'tag start length')
Carriers = namedtuple('Carriers', 'index count spacing_khz first_khz descriptors')
Mode = namedtuple('Mode', 'index system inner split format symbols descriptors')
# program and mode are None for transport 1, scrambled and standard for 0.
Channel = namedtuple('Channel', 'number application path transport type source '
                                'carrier program mode scrambled standard '
                                'descriptors')
Range = namedtuple('Range', 'first last defined')
# start is the place of the name's first byte in the section.
Name = namedtuple('Name', 'application number start size descriptors')

REVISION = 0x93
LONGEST = 1021          # "Bytes of a section": L is at most 1,021
CRC_BYTES = 4
LANGUAGE_BYTES = 3

# Bytes of the header, the byte of medium and subtype in it, and the subtypes
# named in "What the box reads" and in request 2026-01.
HEADER_BYTES = {0xC2: 7, 0xC3: 8, 0xC4: 7}
MEDIUM_AT = {0xC2: 6, 0xC3: 7, 0xC4: 4}
SUBTYPES = {0xC2: {1: CDS, 2: MMS}, 0xC3: {6: NTT}, 0xC4: {0: VCM, 1: DCM}}

SYSTEMS = (0, 2, 3, 4)                      # Table 5.7 of 003
INNER_CODINGS = (0, 1, 3, 5, 7, 8, 9, 11, 15)   # Table 5.8
FORMATS = tuple(range(25))                  # Table 5.9


class Refused(Exception):
    """Ends the reading with the number of a refusal."""

    def __init__(self, number):
        Exception.__init__(self, number)
        self.number = number


# ---------------------------------------------------------------- the CRC

def _crc_of_byte(byte):
    """The register after the eight bits of one byte, by the definition."""
    register = byte << 24
    for _ in range(8):
        top = register & 0x80000000
        register = (register << 1) & 0xFFFFFFFF
        if top:
            register ^= 0x04C11DB7
    return register


_CRC_TABLE = tuple(_crc_of_byte(byte) for byte in range(256))


def crc(data):
    """Register all ones, no reflection, nothing done to the result."""
    register = 0xFFFFFFFF
    table = _CRC_TABLE
    for byte in data:
        register = ((register << 8) & 0xFFFFFFFF) ^ table[register >> 24 ^ byte]
    return register


# ------------------------------------------------------ reading front to back

class Reader:
    """Stands at a place of the section; end is where the CRC begins."""

    def __init__(self, section):
        self.section = section
        self.at = 0
        self.end = len(section) - CRC_BYTES

    def take(self, count):
        """The next count bytes as one whole, or refusal 8."""
        if self.at + count > self.end:
            raise Refused(8)
        start = self.at
        self.at = start + count
        return self.section[start:self.at]


def need_zero(bits):
    if bits != 0:
        raise Refused(9)


def need(good):
    if not good:
        raise Refused(10)


def word(data, at):
    return data[at] << 8 | data[at + 1]


def read_descriptor(reader):
    """Tag, length, body, taken whole: 8 is its only refusal."""
    tag, length = reader.take(2)
    start = reader.at
    reader.take(length)
    return Descriptor(tag, start, length)


def read_counted_descriptors(reader):
    """The list behind a record.  No tag counts there, 0x93 neither."""
    count = reader.take(1)[0]
    return [read_descriptor(reader) for _ in range(count)]


def read_closing_list(reader):
    """"filling exactly the room up to the CRC"."""
    found = []
    while reader.at < reader.end:
        found.append(read_descriptor(reader))
    return found


# ------------------------------------------------------- checks 3 to 6, and 7

def section_length(section):
    """L: twelve bits, the two reserved bits not looked at."""
    return (section[1] & 0x0F) << 8 | section[2]


def check_frame(section):
    """3 to 6 by number."""
    if len(section) < 8:
        raise Refused(3)
    length = section_length(section)
    if len(section) != 3 + length or length > LONGEST:
        raise Refused(3)
    if section[0] not in SUBTYPES:
        raise Refused(4)
    if crc(section) != 0:
        raise Refused(5)
    # 8 bytes hold byte 3 and the CRC, so the protocol version is always there.
    if section[3] & 0x1F != 0:
        raise Refused(6)


def read_table_name(section, end):
    """7, with 8 standing for it where its byte isn't there (reading 1)."""
    at = MEDIUM_AT[section[0]]
    if at >= end:
        raise Refused(8)
    medium, subtype = section[at] >> 4, section[at] & 0x0F
    if medium != 0 or subtype not in SUBTYPES[section[0]]:
        raise Refused(7)
    return SUBTYPES[section[0]][subtype]


def read_header(reader):
    """All of its bytes as one whole: 8, then the zero bits of bytes 1 and 3."""
    header = reader.take(HEADER_BYTES[reader.section[0]])
    need_zero(header[1] & 0xC0)
    need_zero(header[3] & 0xE0)
    return header


# ----------------------------------------------------------------- 0xC2 tables

def read_first_index(header):
    need(header[4] != 0)
    return header[4]


def unit_khz(bit):
    return 125 if bit else 10


def read_carriers(reader, index):
    """CDS record, 5 bytes; its carriers take the indices from index on."""
    data = reader.take(5)
    spacing, first = word(data, 1), word(data, 3)
    need_zero(spacing & 0x4000)
    count = data[0]
    need(count != 0)
    need(index + count - 1 <= 255)
    return Carriers(index, count,
                    (spacing & 0x3FFF) * unit_khz(spacing >> 15),
                    (first & 0x7FFF) * unit_khz(first >> 15),
                    read_counted_descriptors(reader))


def carrier_khz(record, k):
    """Carrier k, from 0: first + k x spacing."""
    return record.first_khz + k * record.spacing_khz


def read_cds(reader, header):
    index = read_first_index(header)
    records = []
    for _ in range(header[5]):
        record = read_carriers(reader, index)
        records.append(record)
        index += record.count
    return records


def read_mode(reader, index):
    """MMS record, 6 bytes, one index."""
    data = reader.take(6)
    need_zero(data[1] & 0x60)
    need_zero(data[2] & 0xF0)
    system, inner = data[0] >> 4, data[0] & 0x0F
    modulation = data[1] & 0x1F
    need(index <= 255)
    need(system in SYSTEMS)
    need(inner in INNER_CODINGS)
    need(modulation in FORMATS)
    symbols = (data[2] & 0x0F) << 24 | data[3] << 16 | word(data, 4)
    return Mode(index, system, inner, data[1] >> 7, modulation, symbols,
                read_counted_descriptors(reader))


def read_mms(reader, header):
    index = read_first_index(header)
    return [read_mode(reader, index + k) for k in range(header[5])]


# ----------------------------------------------------------------- 0xC4 tables

def read_channel(reader, included):
    """Channel record, 9 bytes."""
    data = reader.take(9)
    flags = data[2]
    transport = flags >> 4 & 1
    need_zero(data[0] & 0xF0)
    need_zero(flags & 0x40)
    if transport == 1:
        need_zero(data[6] & 0x70)
        need_zero(word(data, 7))
    kind = flags & 0x0F
    need(kind <= 1)
    program = mode = scrambled = standard = None
    if transport == 1:
        scrambled, standard = data[6] >> 7, data[6] & 0x0F
        need(standard <= 4)
    else:
        program, mode = word(data, 6), data[8]
    descriptors = read_counted_descriptors(reader) if included else []
    return Channel(word(data, 0) & 0x0FFF, flags >> 7, flags >> 5 & 1, transport,
                   kind, word(data, 3), data[5], program, mode, scrambled,
                   standard, descriptors)


def read_vcm(reader, header):
    """Head of 7 bytes; splice and time are not acted on."""
    head = reader.take(7)
    need_zero(head[0] & 0xDF)
    need_zero(head[1] & 0x7F)
    included = head[0] & 0x20 != 0
    return [read_channel(reader, included) for _ in range(head[6])]


def read_range(reader, first):
    """One range byte; the range begins at channel first."""
    byte = reader.take(1)[0]
    count = byte & 0x7F
    need(count != 0)
    need(first + count - 1 <= 4095)
    return Range(first, first + count - 1, byte >> 7)


def read_dcm(reader, header):
    """Head of 3 bytes, then the range bytes, each going on from the last."""
    head = reader.take(3)
    need_zero(head[0] & 0xF0)
    need_zero(head[2] & 0x80)
    channel = word(head, 0) & 0x0FFF
    ranges = []
    for _ in range(head[2] & 0x7F):
        ranges.append(read_range(reader, channel))
        channel = ranges[-1].last + 1
    return ranges


# ------------------------------------------------------------------ 0xC3, names

def read_name(reader):
    """Four bytes and the name as one whole: 8, then 9, then 10 for the text."""
    front = reader.take(4)
    start, size = reader.at, front[3]
    name = reader.take(size)
    need_zero(front[0] & 0x7F)
    need(text.is_good(name))
    return Name(front[0] >> 7, word(front, 1), start, size,
                read_counted_descriptors(reader))


def read_ntt(reader, header):
    """Head of 1 byte, the record count."""
    count = reader.take(1)[0]
    return [read_name(reader) for _ in range(count)]


def language_of(header):
    return header[4:4 + LANGUAGE_BYTES]


# ------------------------------------------------------------ the whole section

STRUCTURES = {CDS: read_cds, MMS: read_mms, VCM: read_vcm, DCM: read_dcm,
              NTT: read_ntt}


def read_revision(section, closing):
    """11, judged last.  More body bytes than three are passed over."""
    found = [each for each in closing if each.tag == REVISION]
    if len(found) != 1 or found[0].length < 3:
        raise Refused(11)
    start = found[0].start
    version, number, last = section[start] & 0x1F, section[start + 1], section[start + 2]
    if number > last:
        raise Refused(11)
    return version, number, last


def read_or_raise(section):
    check_frame(section)
    reader = Reader(section)
    table = read_table_name(section, reader.end)
    header = read_header(reader)
    records = STRUCTURES[table](reader, header)
    closing_start = reader.at
    closing = read_closing_list(reader)
    version, number, last = read_revision(section, closing)
    map_number = word(header, 5) if table in (VCM, DCM) else None
    language = language_of(header) if table == NTT else None
    return Content(table, map_number, language, version, number, last, records,
                   closing, closing_start)


def read(section):
    """Content of a section that reads right, else Refusal(3..11)."""
    try:
        return read_or_raise(section)
    except Refused as refused:
        return Refusal(refused.number)


def check(section):
    """0 for a section that reads right, else the number of the refusal."""
    answer = read(section)
    return answer.number if isinstance(answer, Refusal) else 0


def find(section, tag):
    """The public question: first descriptor of the tag in the closing list."""
    answer = read(section)
    if isinstance(answer, Refusal):
        return ('refused', answer.number)
    for each in answer.closing:
        if each.tag == tag:
            return ('there', each.start, each.length)
    return ('none',)
