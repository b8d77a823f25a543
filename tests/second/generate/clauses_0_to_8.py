"""Mofrindi: sections that reach a named clause of document 01: 0 and 3 to 8.

A clause makes sections that must get its answer, most of them by edits of a
right draft.  Those of 9 to 11 are in clauses_9_to_11.py, those of names alone
in clauses_of_names.py.
"""

import zlib
from collections import namedtuple

from generate.drafts import (WHOLE, Part, break_revision, fill, grow_reserved, grow_revision, hurt_value, hurt_zero,
                             make, other_than, runs_in, start_index)
from generate.pieces import TABLES, any_descriptor, base, channel_record, descriptor, reseal, seal, two
from program.section import MEDIUM_AT, REVISION, crc

Clause = namedtuple('Clause', 'answer name make')


# ---------------------------------------------------------- the named clauses

CLAUSES = []
ALL = 'CDS MMS VCM DCM NTT'
RECORDS = 'CDS MMS VCM NTT'
BODIES = 'record range'
READ = (0xC2, 0xC3, 0xC4)       # the table numbers that are read


def clause(answer, name, maker):
    """maker(dice) gives sections that must get this answer."""
    CLAUSES.append(Clause(answer, name, maker))


def on(answer, name, tables, *edits, **options):
    """One clause for each table: a right draft, edited in this order.

    options go to make(); after=f changes the finished section.
    """
    after = options.pop('after', None)

    def maker(dice, table):
        draft = make(dice, table, **options)
        for edit in edits:
            edit(dice, draft)
        section = draft.whole()
        return after(dice, section) if after else section

    for table in tables.split():
        clause(answer, '%s, %s' % (name, table),
               lambda dice, table=table: maker(dice, table))


# Hurts change one part: f(dice, draft, at).  Edits change a draft: f(dice, draft).

def one_short(dice, draft, at):
    runs_in(dice, draft, at, len(draft.parts[at].data) - 1)


def not_there(dice, draft, at):
    runs_in(dice, draft, at, 0)


def tag_alone(dice, draft, at):
    runs_in(dice, draft, at, 1)


def body_short(dice, draft, at):
    """A descriptor whose body is cut, its length whole."""
    size = dice.between(1, 9)
    draft.parts[at].data = bytearray(descriptor(dice.below(256), dice.bytes(size)))
    runs_in(dice, draft, at, 2 + dice.below(size))


def in_one(kinds, *hurts):
    """An edit: all these hurts in one part of these kinds."""
    def edit(dice, draft):
        at = dice.one(draft.places(*kinds.split()))
        for hurt in hurts:
            hurt(dice, draft, at)
    return edit


def put(kind, place, data):
    """An edit: these bytes into the first part of the kind."""
    def edit(dice, draft):
        draft.data(kind)[place:place + len(data)] = data
    return edit


def revision_wrong(how=None):
    return lambda dice, draft: break_revision(dice, draft, how)


def append(give):
    """An edit: one more part, at the end of the closing list."""
    return lambda dice, draft: draft.add('closing', give(dice))


def unknown(dice):
    return any_descriptor(dice, True)


def single_byte(dice):
    return [dice.below(256)]


def no_closing(dice, draft):
    """Everything from the revision on is dropped; for others=0."""
    del draft.parts[draft.places('revision')[0]:]


def top_bits(dice, draft):
    draft.top |= dice.one((0x40, 0x80, 0xC0))


def byte_3_bits(dice, draft):
    draft.data('header')[0] |= dice.between(1, 7) << 5


# 0: reads right.

def full_list(dice, draft):
    at = draft.places('count')[0]
    for _ in range(255 - draft.parts[at].data[0]):
        draft.parts.insert(at + 1, Part('inner', descriptor(dice.below(256), b'')))
    draft.parts[at].data[0] = 255


def revisions_inside(dice, draft):
    for at in draft.places('inner'):
        draft.parts[at].data = bytearray(descriptor(REVISION, dice.bytes(dice.below(5))))


def revision_to_end(dice, draft):
    at = draft.places('revision')[0]
    draft.parts.append(draft.parts.pop(at))


def last_index_is(index):
    """Moves the first index so that the last record ends at this index."""
    def edit(dice, draft):
        draft.data('header')[1] += index + 1 - start_index(draft, len(draft.parts))
    return edit


def ranges_end_at(channel):
    """Moves the first channel so that the last range ends at this one."""
    def edit(dice, draft):
        total = sum(draft.parts[i].data[0] & 0x7F for i in draft.places('range'))
        draft.data('head')[:2] = two(channel + 1 - total)
    return edit


def channel(transport, application):
    """An edit: some record becomes a right one of this kind."""
    def edit(dice, draft):
        at = dice.one(draft.places('record'))
        draft.parts[at].data[:] = channel_record(dice, transport, application)
        # Later edits of 'record' must meet this one.
        draft.parts[at].kind = 'chosen'
    return edit


def fill_to(total):
    return lambda dice, draft: fill(dice, draft, total)


on(0, 'plain', ALL)
on(0, 'no records', ALL, records=0)
on(0, 'exactly 1,024 bytes', ALL, fill_to(WHOLE), records=20, lists='empty', others=0)
on(0, 'many records', ALL, records='most', lists='empty', others=0)
on(0, 'descriptors in every record list', RECORDS, lists='some')
on(0, '255 descriptors in one record list', RECORDS, full_list, records=1,
   lists='some', others=0)
on(0, 'descriptors-included, every list empty', 'VCM', lists='zero')
on(0, 'no record lists', 'VCM', lists='none')
on(0, 'revisions in record lists passed over', RECORDS, revisions_inside, lists='some')
on(0, 'revision first of the closing list', ALL, append(unknown), append(unknown),
   others=0)
on(0, 'revision last of the closing list', ALL, append(unknown), append(unknown),
   revision_to_end, others=0)
on(0, 'longer revision body', ALL, grow_revision)
on(0, 'reserved bits anyhow', ALL, grow_reserved)
on(0, 'last index exactly 255', 'CDS MMS', last_index_is(255))
on(0, 'last range ends at 4095', 'DCM', ranges_end_at(4095))
on(0, 'application channel, analogue', 'VCM', channel(1, 1))
on(0, 'digital bytes that would be wrong for analogue', 'VCM',
   put('record', 6, b'\x7F\xFF\xFF'), transport=0)
on(0, 'references 0, programme 0', 'VCM', put('record', 5, bytes(4)), transport=0)
on(0, 'spacing 0 and frequency 0', 'CDS', put('record', 1, bytes(4)))
on(0, 'symbol rate 0', 'MMS', put('record', 2, bytes(4)))
on(0, 'number and last 255', ALL, put('revision', 3, b'\xFF\xFF'))


# 3: fewer than 8 bytes, not exactly 3 + L, L above 1,021.

def length_off(low, high):
    """An L wrong by some number of these, CRC right."""
    def after(dice, section):
        length = len(section) - 3 + dice.between(low, high)
        return reseal(section[:1] + two(0x3000 | length) + section[3:])
    return after


def wrong_protocol(dice, draft):
    draft.data('header')[0] |= dice.between(1, 31)


def medium_place(draft):
    """In the header's part, which begins with byte 3."""
    return MEDIUM_AT[draft.number] - 3


def wrong_medium(dice, draft):
    draft.data('header')[medium_place(draft)] |= dice.between(1, 15) << 4


def wrong_table(dice, draft):
    draft.number = other_than(dice, 256, READ)


def wrong_crc(dice, section):
    return section[:-1] + bytes([section[-1] ^ dice.between(1, 255)])


def cut_off(dice, section):
    return section[:dice.between(8, len(section) - 1)]


def put_on(dice, section):
    return section + dice.bytes(dice.between(1, 5))


def any_number(dice):
    return dice.one(READ)


def too_few(dice):
    size = dice.below(5)
    return bytes([any_number(dice), 0x30, size]) + dice.bytes(size)


clause(3, 'no byte at all', lambda dice: b'')
clause(3, 'one or two bytes', lambda dice: base(dice.one(TABLES))[:dice.between(1, 2)])
clause(3, 'fewer than 8 bytes, exactly 3 + L', too_few)
clause(3, 'seven bytes, CRC right', lambda dice: seal(any_number(dice), b''))
on(3, 'bytes missing at the end', ALL, after=cut_off)
on(3, 'bytes too many at the end', ALL, after=put_on)
on(3, 'L one too small, CRC right', ALL, after=length_off(-1, -1))
on(3, 'L one too large, CRC right', ALL, after=length_off(1, 1))
on(3, 'L above 1,021, the bytes not there', ALL, after=length_off(1100, 3000))
on(3, 'L 1,022, all else right', ALL, fill_to(WHOLE + 1), records=9, lists='empty', others=0)
on(3, 'L 1,177, all else right', ALL, fill_to(1180), records=9, lists='empty', others=0)
on(3, 'L 4,095, all else right', 'VCM', fill_to(4098), records=9, lists='empty', others=0)
on(3, '3 and 4: 3 wins', ALL, wrong_table, after=put_on)
on(3, '3 and 5: 3 wins', ALL, after=lambda dice, section: put_on(dice, wrong_crc(dice, section)))
on(3, '3 and 6: 3 wins', ALL, wrong_protocol, after=length_off(1, 3))
on(3, '3 and 7: 3 wins', ALL, wrong_medium, after=length_off(1, 3))


# 4 and 5.

def table_is(number):
    def edit(dice, draft):
        draft.number = number
    return edit


def crc_bit(dice, section):
    at = len(section) - dice.between(1, 4)
    return section[:at] + bytes([section[at] ^ 1 << dice.below(8)]) + section[at + 1:]


def content_bit(dice, section):
    at = dice.between(3, len(section) - 5)
    return section[:at] + bytes([section[at] ^ 1 << dice.below(8)]) + section[at + 1:]


def other_crc(formula):
    """after: another checksum in the place of the CRC."""
    def after(dice, section):
        front = section[:-4]
        value = formula(front)
        if value == crc(front):
            value ^= 1
        return front + value.to_bytes(4, 'big')
    return after


def turned_round(front):
    return int.from_bytes(crc(front).to_bytes(4, 'big'), 'little')


def begun_at_zero(front):
    """The effect of the all-ones start taken out again."""
    return crc(front) ^ crc(bytes(len(front)))


for _number in (0xC0, 0xC1, 0xC5, 0xC6, 0x43):
    on(4, 'table number 0x%X' % _number, ALL, table_is(_number))
on(4, 'any other table number', ALL, wrong_table)
on(4, '4 and 5: 4 wins', ALL, wrong_table, after=wrong_crc)
on(4, '4 and 6: 4 wins', ALL, wrong_protocol, wrong_table)
on(4, '4 and 7: 4 wins', ALL, wrong_medium, wrong_table)
clause(4, 'eight bytes of another table: 4 before 8',
       lambda dice: seal(other_than(dice, 256, READ), dice.bytes(1)))

on(5, 'a bit of the CRC', ALL, after=crc_bit)
on(5, 'a bit before the CRC', ALL, after=content_bit)
on(5, 'CRC all zero', ALL, after=other_crc(lambda front: 0))
on(5, 'CRC all ones', ALL, after=other_crc(lambda front: 0xFFFFFFFF))
on(5, 'CRC inverted', ALL, after=other_crc(lambda front: crc(front) ^ 0xFFFFFFFF))
on(5, 'CRC bytes turned round', ALL, after=other_crc(turned_round))
on(5, 'CRC reflected', ALL, after=other_crc(zlib.crc32))
on(5, 'CRC begun at zero', ALL, after=other_crc(begun_at_zero))
on(5, '5 and 6: 5 wins', ALL, wrong_protocol, after=wrong_crc)
on(5, '5 and 7: 5 wins', ALL, wrong_medium, after=wrong_crc)
on(5, '5 and 8: 5 wins', ALL, in_one('header record range', runs_in), after=wrong_crc)
on(5, '5 and 9: 5 wins', ALL, in_one('header', hurt_zero), after=wrong_crc)
on(5, '5 and 10: 5 wins', ALL, in_one(BODIES, hurt_value), after=wrong_crc)
on(5, '5 and 11: 5 wins', ALL, revision_wrong(), after=wrong_crc)


# 6 and 7.

def subtype_is(subtype):
    def edit(dice, draft):
        draft.data('header')[medium_place(draft)] = subtype
    return edit


on(6, 'protocol version', ALL, wrong_protocol)
on(6, '6 and 7: 6 wins', ALL, wrong_protocol, wrong_medium)
on(6, '6 and zero bits of byte 1: 6 wins', ALL, wrong_protocol, top_bits)
on(6, '6 and zero bits of byte 3: 6 wins', ALL, wrong_protocol, byte_3_bits)
on(6, '6 and 8: 6 wins', ALL, wrong_protocol, in_one('header record range', runs_in))
on(6, '6 and 10: 6 wins', ALL, wrong_protocol, in_one(BODIES, hurt_value))
on(6, '6 and 11: 6 wins', ALL, wrong_protocol, revision_wrong())
clause(6, 'protocol version in 8 bytes: 6 before 8',
       lambda dice: seal(any_number(dice), [dice.between(1, 31)]))

on(7, 'medium not 0', ALL, wrong_medium)
for _subtype in (0,) + tuple(range(3, 16)):
    on(7, 'subtype %d of 0xC2' % _subtype, 'CDS', subtype_is(_subtype))
for _subtype in range(2, 16):
    on(7, 'subtype %d of 0xC4' % _subtype, 'DCM', subtype_is(_subtype))
for _subtype in tuple(range(6)) + tuple(range(7, 16)):
    on(7, 'subtype %d of 0xC3' % _subtype, 'NTT', subtype_is(_subtype))
on(7, '7 and zero bits of byte 1: 7 wins', ALL, wrong_medium, top_bits)
on(7, '7 and zero bits of byte 3: 7 wins', ALL, wrong_medium, byte_3_bits)
on(7, '7 and first index 0: 7 wins', 'CDS MMS', wrong_medium, put('header', 1, b'\x00'))
on(7, '7 and 8 behind: 7 wins', ALL, wrong_medium, in_one(BODIES, not_there))
on(7, '7 and 11: 7 wins', ALL, wrong_medium, revision_wrong())
clause(7, '7 and the map number not there: 7 wins', lambda dice: seal(
    0xC4, bytes([dice.below(8) << 5, dice.between(2, 255)]) + dice.bytes(dice.below(2))))


# 8: runs into the CRC.

def headless(number, most, top, byte_3):
    """A section that ends in front of medium and subtype."""
    return lambda dice: seal(number, bytes([byte_3]) + dice.bytes(dice.below(most)), top)


def no_map(top, byte_3):
    """A section that ends in front of or inside the map number."""
    return lambda dice: seal(0xC4, bytes([byte_3, dice.below(2)])
                             + dice.bytes(dice.below(2)), top)


def count_one_more(dice, draft):
    """The record count, or the DCM data length, counts one too many."""
    if draft.number == 0xC2:
        draft.data('header')[2] += 1
    else:
        draft.parts[draft.places('head', 'total')[0]].data[-1] += 1


def inner_count_more(dice, draft):
    count = draft.data('count')
    count[0] = dice.between(count[0] + 1, 255)


def second_at_256(*hurts):
    """An edit for two records: the second one begins at index 256."""
    def edit(dice, draft):
        at = draft.places('record')[1]
        draft.data('header')[1] += 256 - start_index(draft, at)
        for hurt in hurts:
            hurt(dice, draft, at)
    return edit


def long_body(dice):
    """A descriptor whose length is too large for what is there."""
    size = dice.below(4)
    return bytes([dice.below(256), size + dice.between(1, 5)]) + dice.bytes(size)


def last_body_one_more(dice, draft):
    draft.parts[-1].data[1] += 1


for _number, _most in ((0xC2, 3), (0xC3, 4), (0xC4, 1)):
    for _top, _byte_3, _said in ((0x30, 0, ''), (0xF0, 0, ', zero bits of byte 1: 8 wins'),
                                 (0x30, 0xE0, ', zero bits of byte 3: 8 wins')):
        clause(8, 'medium not there, 0x%X%s' % (_number, _said),
               headless(_number, _most, _top, _byte_3))
clause(8, 'medium not there, first index 0: 8 wins',
       lambda dice: seal(0xC2, bytes(2) + dice.bytes(dice.below(2))))
clause(8, 'map number not there', no_map(0x30, 0))
clause(8, 'map number not there, zero bits of byte 1: 8 wins', no_map(0x70, 0))
clause(8, 'map number not there, zero bits of byte 3: 8 wins', no_map(0x30, 0x20))
on(8, 'head runs into the CRC', 'VCM DCM NTT', in_one('head total', runs_in))
on(8, '8 and 9 in a head: 8 wins', 'VCM DCM', in_one('head', hurt_zero, one_short))
on(8, 'record runs into the CRC', RECORDS, in_one('record', runs_in))
on(8, 'last byte of a record not there', RECORDS, in_one('record', one_short))
on(8, 'record not there at all', RECORDS, in_one('record', not_there))
on(8, 'one record more counted than there is', ALL, no_closing, count_one_more,
   lists='empty', others=0)
on(8, '8 and 9 in one record: 8 wins', RECORDS, in_one('record', hurt_zero, one_short))
on(8, '8 and 10 in one record: 8 wins', RECORDS, in_one('record', hurt_value, one_short))
on(8, '8, 9 and 10 in one record: 8 wins', RECORDS,
   in_one('record', hurt_zero, hurt_value, one_short))
on(8, 'record at index 256 runs into the CRC: 8 before 10', 'CDS MMS',
   second_at_256(runs_in), records=2)
on(8, 'descriptor count not there', RECORDS, in_one('count', not_there), lists='some')
on(8, 'record descriptor not there', RECORDS, in_one('inner', not_there), lists='some')
on(8, 'length of a record descriptor not there', RECORDS, in_one('inner', tag_alone),
   lists='some')
on(8, 'body of a record descriptor runs into the CRC', RECORDS,
   in_one('inner', body_short), lists='some')
on(8, 'more record descriptors counted than there are', RECORDS, no_closing,
   inner_count_more, records=1, lists='some', others=0)
on(8, 'range byte not there', 'DCM', in_one('range', not_there))
on(8, 'range byte not there behind channel 4095: 8 before 10', 'DCM', ranges_end_at(4095),
   no_closing, count_one_more, others=0)
on(8, 'closing descriptor: length not there', ALL, append(single_byte))
on(8, 'closing descriptor: body runs into the CRC', ALL, append(long_body))
on(8, 'closing descriptor: body one byte too long', ALL, last_body_one_more)
on(8, 'the revision descriptor runs into the CRC', ALL, in_one('revision', runs_in))
on(8, '8 in the closing list and 11: 8 wins', ALL, revision_wrong(), append(single_byte))
