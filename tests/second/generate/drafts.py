"""Mofrindi: drafts of sections that read right, their growth and their damage.

A draft is a section in parts; whole() gives its bytes, length and CRC right.
"""

from generate.pieces import (NUMBERS, SUBTYPE, any_descriptor, cds_record, channel_record, descriptor, mms_record,
                             name_record, revision, seal, two)
from generate.texts import any_language, wrong_text
from program.section import CDS, DCM, FORMATS, INNER_CODINGS, MMS, NTT, REVISION, SYSTEMS, VCM

# So many records, their lists empty, still leave room for a revision.
MOST = {CDS: 165, MMS: 140, VCM: 95, DCM: 127, NTT: 120}
WHOLE = 1024
LONG_NAME = 24          # bytes that a drawn name has at most


# ------------------------------------------------------------------- drafts

class Part:
    """header, head, total, record, range, count, inner, closing or revision.

    total is the head of names: their record count alone, without zero bits.
    """

    def __init__(self, kind, data):
        self.kind = kind
        self.data = bytearray(data)


class Draft:
    """A section in parts, so that growth and damage find their places.

    The parts hold all bytes from byte 3 up to the CRC.
    """

    def __init__(self, table):
        self.table = table
        self.number = NUMBERS[table]
        self.top = 0x30
        self.parts = []

    def add(self, kind, data):
        self.parts.append(Part(kind, data))

    def places(self, *kinds):
        return [i for i, part in enumerate(self.parts) if part.kind in kinds]

    def data(self, kind):
        return self.parts[self.places(kind)[0]].data

    def size(self):
        return 7 + sum(len(part.data) for part in self.parts)

    def rest(self):
        return b''.join(bytes(part.data) for part in self.parts)

    def whole(self):
        return seal(self.number, self.rest(), self.top)


def add_list(dice, draft, lists):
    """A descriptor count with its descriptors; lists as for make()."""
    if lists in ('empty', 'zero'):
        count = 0
    elif lists == 'some':
        count = dice.between(1, 3)
    else:
        count = dice.between(1, 3) if dice.chance(4) else 0
    draft.add('count', [count])
    for _ in range(count):
        draft.add('inner', any_descriptor(dice, False))


def add_cds(dice, draft, records, lists, transport):
    carriers = [1 + dice.below(255 // records) for _ in range(records)]
    room = 256 - sum(carriers)
    first = room if dice.chance(3) and room < 256 else 1 + dice.below(min(room, 255))
    draft.add('header', [0, first, records, 1])
    for count in carriers:
        draft.add('record', cds_record(dice, count))
        add_list(dice, draft, lists)


def add_mms(dice, draft, records, lists, transport):
    room = 256 - records
    first = room if dice.chance(3) and room < 256 else 1 + dice.below(min(room, 255))
    draft.add('header', [0, first, records, 2])
    for _ in range(records):
        draft.add('record', mms_record(dice))
        add_list(dice, draft, lists)


def add_vcm(dice, draft, records, lists, transport):
    included = dice.below(2) if lists in (None, 'empty') else lists != 'none'
    draft.add('header', b'\x00\x00' + dice.bytes(2))
    draft.add('head', bytes([included << 5, dice.below(2) << 7]) + dice.bytes(4)
              + bytes([records]))
    for _ in range(records):
        draft.add('record', channel_record(dice, transport))
        if included:
            add_list(dice, draft, lists)


def add_dcm(dice, draft, records, lists, transport):
    most = min(127, 4096 // records) if records else 1
    counts = [1 + dice.below(most) for _ in range(records)]
    room = 4096 - sum(counts)
    first = room if dice.chance(3) else dice.below(room + 1)
    draft.add('header', b'\x00\x01' + dice.bytes(2))
    draft.add('head', two(min(first, 4095)) + bytes([records]))
    for count in counts:
        draft.add('range', [dice.below(2) << 7 | count])


def add_ntt(dice, draft, records, lists, transport):
    draft.add('header', b'\x00' + any_language(dice) + bytes([SUBTYPE[NTT]]))
    draft.add('total', [records])
    # Many records have short names, so that a revision and some descriptors find room behind them.
    most = min(LONG_NAME, 900 // records - 5) if records else 0
    for _ in range(records):
        draft.add('record', name_record(dice, most))
        add_list(dice, draft, lists)


ADD = {CDS: add_cds, MMS: add_mms, VCM: add_vcm, DCM: add_dcm, NTT: add_ntt}


def make(dice, table, records=None, lists=None, transport=None, others=None):
    """A draft that reads right.

    lists: None any, 'some' descriptors in each record, 'empty' none; for VCM
    'zero' has lists, all empty, and 'none' has no lists.  others: closing
    descriptors besides the revision.
    """
    draft = Draft(table)
    if records is None:
        records = dice.between(1, 4)
    elif records == 'most':
        records = MOST[table]
    ADD[table](dice, draft, records, lists, transport)
    if others is None:
        others = dice.between(1, 3) if dice.chance(2) else 0
    before = dice.below(others + 1)
    for _ in range(before):
        draft.add('closing', any_descriptor(dice, True))
    last = dice.below(256) if dice.chance(6) else dice.below(4)
    draft.add('revision', revision(dice.below(32), dice.below(last + 1), last))
    for _ in range(others - before):
        draft.add('closing', any_descriptor(dice, True))
    return draft


def fill(dice, draft, total):
    """Closing descriptors until the section has total bytes."""
    gap = total - draft.size()
    if gap == 1:
        body = draft.data('revision')
        body.append(dice.below(256))
        body[1] += 1
        gap = 0
    while gap > 0:
        size = min(gap, 257)
        if gap - size == 1:
            size -= 1
        tag = dice.below(REVISION)
        at = dice.one(draft.places('closing', 'revision')) + dice.below(2)
        draft.parts.insert(at, Part('closing', descriptor(tag, dice.bytes(size - 2))))
        gap -= size
    return draft


def valid(dice, table):
    """All sizes: none, few, many records; now and then near 1,024 bytes."""
    size = dice.below(48)
    if size == 0:
        return fill(dice, make(dice, table, 'most', 'empty', others=0), WHOLE)
    if size == 1:
        total = dice.between(WHOLE - 30, WHOLE)
        return fill(dice, make(dice, table, dice.between(0, 60), 'empty', others=0), total)
    if size == 2:
        return make(dice, table, dice.between(10, 60), 'empty')
    if size < 6:
        return make(dice, table, 0)
    return make(dice, table)


# ------------------------------------------------------------------- growth

def grow_list(dice, draft):
    """An unknown descriptor into a record's list (condition 3)."""
    counts = [i for i in draft.places('count') if draft.parts[i].data[0] < 255]
    extra = any_descriptor(dice, False)
    if not counts or draft.size() + len(extra) > WHOLE:
        return
    at = dice.one(counts)
    behind = 1 + dice.below(draft.parts[at].data[0] + 1)
    draft.parts.insert(at + behind, Part('inner', extra))
    draft.parts[at].data[0] += 1


def grow_closing(dice, draft):
    extra = any_descriptor(dice, True)
    if draft.size() + len(extra) > WHOLE:
        return
    at = dice.one(draft.places('closing', 'revision')) + dice.below(2)
    draft.parts.insert(at, Part('closing', extra))


def grow_revision(dice, draft):
    """More bytes at the end of the revision's body."""
    body = draft.data('revision')
    extra = dice.bytes(dice.between(1, 6))
    if draft.size() + len(extra) > WHOLE or body[1] + len(extra) > 255:
        return
    body.extend(extra)
    body[1] += len(extra)


def grow_reserved(dice, draft):
    draft.top = draft.top & 0xC0 | dice.below(4) << 4
    body = draft.data('revision')
    body[2] = body[2] & 0x1F | dice.below(8) << 5


def grow(dice, draft):
    steps = dice.between(60, 300) if dice.chance(60) else dice.between(1, 6)
    for _ in range(steps):
        way = dice.one((grow_list, grow_list, grow_closing, grow_revision, grow_reserved))
        way(dice, draft)
    return draft


# ------------------------------------------------------------------- damage

def set_bit(dice, data, masks):
    """One more bit of those that masks, {place: mask}, allows."""
    at = dice.one(sorted(masks))
    bits = [1 << k for k in range(8) if masks[at] >> k & 1]
    data[at] |= dice.one(bits)


def zero_masks(draft, at):
    """Where the zero bits of a part stand: {place in the part: mask}."""
    part = draft.parts[at]
    if part.kind == 'header':
        return {0: 0xE0}
    if part.kind == 'head':
        return {0: 0xDF, 1: 0x7F} if draft.table == VCM else {0: 0xF0, 2: 0x80}
    if draft.table == CDS:
        return {1: 0x40}
    if draft.table == MMS:
        return {1: 0x60, 2: 0xF0}
    if draft.table == NTT:
        return {0: 0x7F}
    masks = {0: 0xF0, 2: 0x40}
    if part.data[2] & 0x10:
        masks.update({6: 0x70, 7: 0xFF, 8: 0xFF})
    return masks


def hurt_zero(dice, draft, at):
    """A 9 in a header, a head or a record."""
    if draft.parts[at].kind == 'header' and dice.chance(2):
        draft.top |= dice.one((0x40, 0x80, 0xC0))
    else:
        set_bit(dice, draft.parts[at].data, zero_masks(draft, at))


def start_index(draft, at):
    """The first index of the record at this place, for CDS and MMS."""
    before = [draft.parts[i].data for i in draft.places('record') if i < at]
    taken = sum(data[0] for data in before) if draft.table == CDS else len(before)
    return draft.parts[0].data[1] + taken


def other_than(dice, limit, good):
    value = dice.below(limit)
    while value in good:
        value = dice.below(limit)
    return value


def hurt_value(dice, draft, at):
    """A 10 in a header of 0xC2, a record or a range byte."""
    part = draft.parts[at]
    data = part.data
    if part.kind == 'header':
        data[1] = 0
    elif part.kind == 'range':
        data[0] &= 0x80
    elif draft.table == CDS:
        index = start_index(draft, at)
        data[0] = 0 if index < 2 or dice.chance(2) else dice.between(257 - index, 255)
    elif draft.table == MMS:
        hurt_mode(dice, data, dice.one(('system', 'inner', 'format')))
    elif draft.table == NTT:
        rename(data, wrong_text(dice))
    elif data[2] & 0x10 and dice.chance(2):
        data[6] = data[6] & 0xF0 | dice.between(5, 15)
    else:
        data[2] = data[2] & 0xF0 | dice.between(2, 15)


def rename(data, name):
    """This name, right or wrong, in a record of names."""
    data[3:] = bytes([len(name)]) + name


def hurt_mode(dice, data, which):
    if which == 'system':
        data[0] = other_than(dice, 16, SYSTEMS) << 4 | data[0] & 0x0F
    elif which == 'inner':
        data[0] = data[0] & 0xF0 | other_than(dice, 16, INNER_CODINGS)
    else:
        data[1] = data[1] & 0xE0 | other_than(dice, 32, FORMATS)


def runs_in(dice, draft, at, keep=None):
    """The section ends inside the part at this place: an 8.

    A header keeps byte 3; a closing descriptor keeps its tag, since without it
    the list would end in front of it.
    """
    part = draft.parts[at]
    if keep is None:
        least = 1 if part.kind in ('header', 'closing', 'revision') else 0
        most = len(part.data) - 1
        keep = dice.between(min(least, most), most)
    del part.data[keep:]
    del draft.parts[at + 1:]


def break_revision(dice, draft, how=None):
    """An 11, the closing list otherwise right."""
    at = draft.places('revision')[0]
    body = draft.parts[at].data
    how = how or dice.one(('absent', 'twice', 'short', 'above'))
    if how == 'absent':
        del draft.parts[at]
    elif how == 'twice':
        again = revision(dice.below(32), 0, dice.below(4))
        draft.parts.insert(dice.one(draft.places('closing', 'revision')) + dice.below(2),
                           Part('closing', bytes(body) if dice.chance(2) else again))
    elif how == 'short':
        size = dice.below(3)
        del body[2 + size:]
        body[1] = size
    else:
        body[4] = dice.below(255)
        body[3] = dice.between(body[4] + 1, 255)


def break_anything(dice, draft):
    """One damage of any kind to the parts; may leave the section right."""
    at = dice.below(len(draft.parts))
    part = draft.parts[at]
    way = dice.below(9)
    if not part.data:
        return
    if way < 3:
        part.data[dice.below(len(part.data))] ^= 1 << dice.below(8)
    elif way == 3:
        border = dice.one((0, 1, 2, 0x0F, 0x10, 0x7F, 0x80, 0x81, 0xFE, 0xFF))
        part.data[dice.below(len(part.data))] = border
    elif way == 4:
        part.data[dice.below(len(part.data))] = dice.below(256)
    elif way == 5 and at > 0:
        del draft.parts[at]
    elif way == 6:
        draft.parts.insert(at, Part(part.kind, part.data))
    elif way == 7:
        runs_in(dice, draft, at)
    else:
        other = dice.below(len(draft.parts))
        draft.parts[at], draft.parts[other] = draft.parts[other], draft.parts[at]
