"""Mofrindi: the named clauses, continued: 9 to 11; those of names alone are in clauses_of_names.py."""

from generate.clauses_0_to_8 import (ALL, BODIES, RECORDS, channel, count_one_more, in_one, last_index_is, not_there,
                                     on, put, ranges_end_at, revision_wrong, second_at_256)
from generate.drafts import Part, break_revision, hurt_mode, hurt_value, hurt_zero, runs_in, start_index
from generate.pieces import descriptor, two
from program.section import CDS, DCM, MMS, NTT, REVISION, VCM


def front_and_behind(front_kinds, front, behind_kinds, behind):
    """An edit: a hurt in one part, another hurt in a later part."""
    def edit(dice, draft):
        late = draft.places(*behind_kinds.split())
        early = [i for i in draft.places(*front_kinds.split()) if i < late[-1]]
        at = dice.one(early)
        behind(dice, draft, dice.one([i for i in late if i > at]))
        front(dice, draft, at)
    return edit


# 9: every zero bit of every place.

def bit_on(kind, place, bit):
    def edit(dice, draft):
        draft.parts[dice.one(draft.places(kind))].data[place] |= bit
    return edit


def top_bit_on(bit):
    def edit(dice, draft):
        draft.top |= bit
    return edit


def every_zero_bit(table, kind, place, mask, transport=None):
    for bit in (0x80, 0x40, 0x20, 0x10, 8, 4, 2, 1):
        if mask & bit:
            on(9, 'zero bit 0x%02X of byte %d of the %s' % (bit, place, kind), table,
               bit_on(kind, place, bit), transport=transport)


on(9, 'zero bit 0x80 of byte 1', ALL, top_bit_on(0x80))
on(9, 'zero bit 0x40 of byte 1', ALL, top_bit_on(0x40))
on(9, 'zero bit 0x80 of byte 3', ALL, bit_on('header', 0, 0x80))
on(9, 'zero bit 0x40 of byte 3', ALL, bit_on('header', 0, 0x40))
on(9, 'zero bit 0x20 of byte 3', ALL, bit_on('header', 0, 0x20))
every_zero_bit(CDS, 'record', 1, 0x40)
every_zero_bit(MMS, 'record', 1, 0x60)
every_zero_bit(MMS, 'record', 2, 0xF0)
every_zero_bit(DCM, 'head', 0, 0xF0)
every_zero_bit(DCM, 'head', 2, 0x80)
every_zero_bit(VCM, 'head', 0, 0xDF)
every_zero_bit(VCM, 'head', 1, 0x7F)
every_zero_bit(VCM, 'record', 0, 0xF0)
every_zero_bit(VCM, 'record', 2, 0x40)
every_zero_bit(VCM, 'record', 6, 0x70, 1)
every_zero_bit(VCM, 'record', 7, 0xFF, 1)
every_zero_bit(VCM, 'record', 8, 0xFF, 1)
every_zero_bit(NTT, 'record', 0, 0x7F)
on(9, 'zero bits of an analogue application channel', 'VCM', channel(1, 1),
   in_one('chosen', hurt_zero))
on(9, '9 and 10 in the header: 9 wins', 'CDS MMS', in_one('header', hurt_zero, hurt_value))
on(9, '9 and 10 in one record: 9 wins', RECORDS, in_one('record', hurt_zero, hurt_value))
on(9, '9 in the record at index 256: 9 wins', 'CDS MMS', second_at_256(hurt_zero), records=2)
on(9, '9 in the header, what follows not there: 9 wins', ALL,
   front_and_behind('header', hurt_zero, 'head total record', not_there))
on(9, '9 in the head, what follows not there: 9 wins', 'VCM DCM',
   front_and_behind('head', hurt_zero, BODIES, not_there))
on(9, '9 in a record, its descriptor count not there: 9 wins', RECORDS,
   front_and_behind('record', hurt_zero, 'count', not_there), lists='some')
on(9, 'a 9 in front, a 10 behind: the front one wins', ALL,
   front_and_behind('header head record', hurt_zero, BODIES, hurt_value), records=3)
on(9, 'a 9 in front, an 8 behind: the front one wins', ALL,
   front_and_behind('header head record', hurt_zero, 'record range revision', runs_in))
on(9, '9 and 11: 9 wins', ALL, in_one('header head record', hurt_zero), revision_wrong())


# 10: values.

def first_index_above(dice, draft):
    carriers = dice.between(2, 255)
    draft.data('record')[0] = carriers
    draft.data('header')[1] = dice.between(257 - carriers, 255)


def later_index_above(dice, draft):
    at = dice.one(draft.places('record')[1:])
    draft.data('header')[1] += 256 - start_index(draft, at)


def carriers_0(dice, draft, at):
    draft.parts[at].data[0] = 0


def count_behind_not_there(dice, draft, at):
    runs_in(dice, draft, at + 1, 0)


def unassigned(which):
    return in_one('record', lambda dice, draft, at:
                  hurt_mode(dice, draft.parts[at].data, which))


def type_above(dice, draft, at):
    data = draft.parts[at].data
    data[2] = data[2] & 0xF0 | dice.between(2, 15)


def standard_above(dice, draft, at):
    data = draft.parts[at].data
    data[6] = data[6] & 0xF0 | dice.between(5, 15)


def range_is(byte):
    def hurt(dice, draft, at):
        draft.parts[at].data[0] = byte
    return in_one('range', hurt)


def first_range_past(dice, draft):
    count = dice.between(2, 127)
    draft.data('range')[0] = dice.below(2) << 7 | count
    draft.data('head')[:2] = two(dice.between(4097 - count, 4095))


def last_range_past(defined):
    def edit(dice, draft):
        last = draft.parts[draft.places('range')[-1]].data
        last[0] = defined | last[0] & 0x7F
        ranges_end_at(4096)(dice, draft)
    return edit


def range_behind_4095(dice, draft):
    ranges_end_at(4095)(dice, draft)
    count_one_more(dice, draft)
    at = draft.places('range')[-1]
    draft.parts.insert(at + 1, Part('range', [dice.between(1, 255)]))


on(10, 'first index 0', 'CDS MMS', put('header', 1, b'\x00'))
on(10, 'first index 0, no records', 'CDS MMS', put('header', 1, b'\x00'), records=0)
on(10, 'first index 0, record runs into the CRC: 10 wins', 'CDS MMS',
   put('header', 1, b'\x00'), in_one('record', runs_in))
on(10, 'carriers 0', 'CDS', in_one('record', carriers_0))
on(10, 'carriers 0 where the next index is 256', 'CDS', second_at_256(carriers_0), records=2)
on(10, 'an index above 255 in the first record', 'CDS', first_index_above)
on(10, 'an index above 255 in a later record', 'CDS MMS', later_index_above, records=4)
on(10, 'index 256 is the last one', 'CDS MMS', last_index_is(256), records=4)
on(10, 'index 256, its descriptor count not there: 10 wins', 'CDS MMS',
   second_at_256(count_behind_not_there), records=2)
on(10, 'unassigned system', 'MMS', unassigned('system'))
on(10, 'unassigned inner coding', 'MMS', unassigned('inner'))
on(10, 'unassigned format', 'MMS', unassigned('format'))
for _transport, _application, _said in ((0, 0, 'digital'), (1, 0, 'analogue'),
                                        (0, 1, 'application'),
                                        (1, 1, 'analogue application')):
    on(10, 'channel type above 1, ' + _said, 'VCM', channel(_transport, _application),
       in_one('chosen', type_above))
on(10, 'video standard above 4', 'VCM', channel(1, 0), in_one('chosen', standard_above))
on(10, 'video standard above 4, application', 'VCM', channel(1, 1),
   in_one('chosen', standard_above))
on(10, 'channel count 0, defined', 'DCM', range_is(0x80))
on(10, 'channel count 0, not defined', 'DCM', range_is(0x00))
on(10, 'the first range past 4095', 'DCM', first_range_past)
on(10, 'the last range ends at 4096, defined', 'DCM', last_range_past(0x80), records=3)
on(10, 'the last range ends at 4096, not defined', 'DCM', last_range_past(0), records=3)
on(10, 'a range behind channel 4095', 'DCM', range_behind_4095)
on(10, 'a 10 in front, a 9 behind: the front one wins', RECORDS,
   front_and_behind('record', hurt_value, 'record', hurt_zero), records=3)
on(10, 'a 10 in the header, a 9 behind: the front one wins', 'CDS MMS',
   front_and_behind('header', hurt_value, 'record', hurt_zero))
on(10, 'a 10 in front, an 8 behind: the front one wins', ALL,
   front_and_behind(BODIES, hurt_value, 'record range revision', runs_in))
on(10, '10 in a record, its descriptor count not there: 10 wins', RECORDS,
   front_and_behind('record', hurt_value, 'count', not_there), lists='some')
on(10, '10 and 11: 10 wins', ALL, in_one(BODIES, hurt_value), revision_wrong())


# 11: the revision descriptor, judged last.

def revision_moved_inside(dice, draft):
    """The only revision stands in a record's list."""
    at = dice.one(draft.places('inner'))
    draft.parts[at].data = bytearray(draft.data('revision'))
    break_revision(dice, draft, 'absent')


def revision_wrapped(dice, draft):
    """The only revision stands in the body of another descriptor."""
    at = draft.places('revision')[0]
    tag = dice.below(REVISION)
    draft.parts[at].data = bytearray(descriptor(tag, draft.parts[at].data))


def again(dice, draft):
    draft.add('closing', draft.data('revision'))


def short_revision(dice):
    return descriptor(REVISION, dice.bytes(dice.below(3)))


def insert_closing(give):
    def edit(dice, draft):
        at = dice.one(draft.places('closing', 'revision')) + dice.below(2)
        draft.parts.insert(at, Part('closing', give(dice)))
    return edit


def revision_of(size):
    def edit(dice, draft):
        draft.data('revision')[:] = descriptor(REVISION, dice.bytes(size))
    return edit


def one_above_last(dice, draft):
    last = dice.below(255)
    draft.data('revision')[3:5] = bytes([last + 1, last])


on(11, 'no closing list', ALL, revision_wrong('absent'), others=0)
on(11, 'revision absent among others', ALL, revision_wrong('absent'), others=3)
on(11, 'revision only in a record list', RECORDS, revision_moved_inside, lists='some')
on(11, 'revision only inside another body', ALL, revision_wrapped)
on(11, 'revision twice', ALL, revision_wrong('twice'))
on(11, 'revision twice, one of them short', ALL, insert_closing(short_revision))
on(11, 'revision three times', ALL, again, again)
on(11, 'revision body of 0 bytes', ALL, revision_of(0))
on(11, 'revision body of 1 byte', ALL, revision_of(1))
on(11, 'revision body of 2 bytes', ALL, revision_of(2))
on(11, 'number above last', ALL, revision_wrong('above'))
on(11, 'number one above last', ALL, one_above_last)
