"""Mofrindi: growth (condition 3) of sections and runs that are there already, as bytes.

A section that reads right is taken apart into a draft, grown there and put together again; all other sections
of a run stay as they are, so a grown run is cut into sections at the same places of its plain twin.
"""

from generate.drafts import WHOLE, Draft, Part, fill, grow
from generate.pieces import any_descriptor, descriptor
from program.lineup import MAP_BYTES, cut
from program.receiver import read
from program.section import CDS, DCM, HEADER_BYTES, MMS, NTT, REVISION, VCM, Refusal

HEAD_BYTES = {CDS: 0, MMS: 0, VCM: 7, DCM: 3, NTT: 1}
RECORD_BYTES = {CDS: 5, MMS: 6, VCM: 9, DCM: 1, NTT: 4}     # of names all but the name
MOST_BYTE = 255         # of a descriptor count and of a descriptor's length
INCLUDED = 0x20         # descriptors-included, in byte 0 of a VCM's head


# ---------------------------------------------------------------- taken apart

def add_descriptor(draft, kind, section, found):
    draft.add(kind, section[found.start - 2:found.start + found.length])


def add_record(draft, section, at, record, listed):
    """The record that stands at this place, with its list; the place behind it."""
    size = RECORD_BYTES[draft.table] + (record.size if draft.table == NTT else 0)
    draft.add('range' if draft.table == DCM else 'record', section[at:at + size])
    at += size
    if listed:
        draft.add('count', section[at:at + 1])
        at += 1
        for found in record.descriptors:
            add_descriptor(draft, 'inner', section, found)
            at = found.start + found.length
    return at


def draft_of(section):
    """The draft whose whole() is this section, which reads right."""
    content = read(section)
    draft = Draft(content.table)
    draft.top = section[1] & 0xF0
    header_end = HEADER_BYTES[section[0]]
    draft.add('header', section[3:header_end])
    at = header_end + HEAD_BYTES[content.table]
    head = section[header_end:at]
    if head:
        draft.add('total' if content.table == NTT else 'head', head)
    listed = content.table in (CDS, MMS, NTT) or content.table == VCM and head[0] & INCLUDED != 0
    for record in content.records:
        at = add_record(draft, section, at, record, listed)
    for found in content.closing:
        add_descriptor(draft, 'revision' if found.tag == REVISION else 'closing', section, found)
    return draft


# ------------------------------------------------------------- ways to grow a draft

def has_room(draft, data):
    return draft.size() + len(data) <= WHOLE


def grow_full(dice, draft):
    """Unknown descriptors in the closing list until the section has 1,024 bytes."""
    if draft.size() < WHOLE:
        fill(dice, draft, WHOLE)


def grow_every_list(dice, draft):
    """One descriptor more in every record's list."""
    for at in reversed(draft.places('count')):
        extra = any_descriptor(dice, False)
        if draft.parts[at].data[0] < MOST_BYTE and has_room(draft, extra):
            draft.parts.insert(at + 1, Part('inner', extra))
            draft.parts[at].data[0] += 1


def grow_one_list(dice, draft):
    """As many descriptors in one record's list as its count can say."""
    counts = draft.places('count')
    if not counts:
        return
    at = dice.one(counts)
    while draft.parts[at].data[0] < MOST_BYTE and has_room(draft, bytes(2)):
        draft.parts.insert(at + 1, Part('inner', descriptor(dice.below(256), b'')))
        draft.parts[at].data[0] += 1


def grow_inner_revision(dice, draft):
    """0x93 in a record's list, where it doesn't count: other versions, and a body that is too short."""
    for at in reversed(draft.places('count')):
        extra = descriptor(REVISION, dice.bytes(dice.one((3, 3, 0, 2, 5))))
        if draft.parts[at].data[0] < MOST_BYTE and has_room(draft, extra):
            draft.parts.insert(at + 1, Part('inner', extra))
            draft.parts[at].data[0] += 1


def grow_front(dice, draft):
    """In front of all other descriptors of the closing list, one with a revision in its body."""
    extra = descriptor(dice.one((0x92, 0x94, 0, 0x13)), descriptor(REVISION, dice.bytes(3)))
    if has_room(draft, extra):
        draft.parts.insert(draft.places('closing', 'revision')[0], Part('closing', extra))


def grow_behind(dice, draft):
    """Behind all others: empty ones, down to the last bytes of the room for some."""
    for _ in range(dice.between(1, 8)):
        if has_room(draft, bytes(2)):
            draft.add('closing', descriptor(dice.below(REVISION), b''))


def grow_body(dice, draft):
    """The revision's body as long as its length can say."""
    body = draft.data('revision')
    size = min(MOST_BYTE - body[1], WHOLE - draft.size())
    body.extend(dice.bytes(size))
    body[1] += size


def grow_body_by_one(dice, draft):
    body = draft.data('revision')
    if body[1] < MOST_BYTE and has_room(draft, bytes(1)):
        body.append(dice.below(256))
        body[1] += 1


def grow_long(dice, draft):
    """A descriptor of the greatest length."""
    extra = descriptor(REVISION + dice.between(1, 100), dice.bytes(MOST_BYTE))
    if has_room(draft, extra):
        draft.parts.insert(dice.one(draft.places('closing', 'revision')), Part('closing', extra))


def grow_reserved_to(top, bits):
    """The reserved bits of byte 1 and of the revision set to these."""
    def way(dice, draft):
        draft.top = draft.top & 0xC0 | top << 4
        body = draft.data('revision')
        body[2] = body[2] & 0x1F | bits << 5
    return way


def grow_anyhow(dice, draft):
    grow(dice, draft)


WAYS = {
    'to 1,024 bytes': grow_full, 'every list': grow_every_list, 'one list': grow_one_list,
    '0x93 in lists': grow_inner_revision, 'in front': grow_front, 'behind': grow_behind,
    'longest revision': grow_body, 'revision one longer': grow_body_by_one, 'long descriptor': grow_long,
    'no reserved bits': grow_reserved_to(0, 0), 'all reserved bits': grow_reserved_to(3, 7),
    'anyhow': grow_anyhow,
}


# -------------------------------------------------------------------- sections, runs

def grown_section(dice, section, way=grow_anyhow):
    """The section grown if it reads right, else as it is."""
    if isinstance(read(section), Refusal):
        return section
    draft = draft_of(section)
    way(dice, draft)
    return draft.whole()


def grown_input(dice, data, way=grow_anyhow, some=1):
    """The input of a run with its sections grown; of some sections one."""
    sections = [grown_section(dice, section, way) if dice.chance(some) else section
                for section in cut(data[MAP_BYTES:])]
    return data[:MAP_BYTES] + b''.join(sections)
