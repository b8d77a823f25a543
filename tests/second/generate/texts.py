"""Mofrindi: names for records of the Network Text Table: right ones of all kinds, and wrong ones by what is wrong.

What is right and reserved is written here by hand from Table 7.3 of document 003, not taken from the reader.
"""

PAGES = tuple(range(0x07)) + tuple(range(0x09, 0x11)) + tuple(range(0x20, 0x28)) + tuple(range(0x30, 0x34))
RESERVED = (0x07, 0x08) + tuple(range(0x11, 0x20)) + tuple(range(0x28, 0x30)) + tuple(range(0x34, 0x3F))
SIXTEEN_BIT = 0x3F
ALONE = range(0x40, 0xA0)       # effectors of one byte
WITH_LENGTH = range(0xA0, 0x100)
MEASURED = PAGES + (SIXTEEN_BIT,) + tuple(WITH_LENGTH)      # all that a length follows
MOST_NAME = 255


def block(mode, segment):
    return bytes([mode, len(segment)]) + bytes(segment)


def plain(words):
    """Words in mode zero: ASCII and Latin-1."""
    return block(0, words.encode('latin-1'))


def sixteen_bit(words):
    return block(SIXTEEN_BIT, words.encode('utf-16-be'))


# ------------------------------------------------------------------------ right

def any_block(dice, most):
    """A right block of at most so many bytes; where there is room for one byte only, an effector."""
    way = dice.below(6) if most > 1 else 5
    if way == 5:
        return bytes([dice.one(ALONE)])
    size = dice.below(min(most - 2, 12) + 1)
    if way == 4:
        return block(dice.one(WITH_LENGTH), dice.bytes(size))
    if way == 3:
        return block(SIXTEEN_BIT, dice.bytes(size - size % 2))
    return block(dice.one(PAGES) if dice.chance(2) else 0, dice.bytes(size))


def any_text(dice, most):
    """One or more right blocks, of at most so many bytes."""
    whole = any_block(dice, most)
    while len(whole) < most and dice.below(3):
        whole += any_block(dice, most - len(whole))
    return whole


def text_of(dice, size):
    """Right text of exactly so many bytes, 1 to 255."""
    whole = any_text(dice, size)
    gap = size - len(whole)
    if gap == 1:
        return whole + bytes([dice.one(ALONE)])
    return whole + (block(dice.one(PAGES), dice.bytes(gap - 2)) if gap else b'')


# ------------------------------------------------------------------------ wrong

def reserved_mode(dice):
    return block(dice.one(RESERVED), dice.bytes(dice.below(6)))


def odd_sixteen_bit(dice):
    return block(SIXTEEN_BIT, dice.bytes(2 * dice.below(4) + 1))


def mode_alone(dice):
    """The name ends behind a mode that wants a length."""
    return bytes([dice.one(MEASURED)])


def too_long(dice):
    """A block that says more bytes than the name has left; for 16 bits an even number of them."""
    size, more = 2 * dice.below(4), 2 * dice.between(1, 5)
    return bytes([dice.one(MEASURED), size + more]) + dice.bytes(size)


def one_too_long(dice):
    size = dice.below(8)
    return bytes([dice.one(PAGES + tuple(WITH_LENGTH)), size + 1]) + dice.bytes(size)


def no_text(dice):
    return b''


# What may stand behind right blocks, and no_text, which may not.
WRONG_ENDS = {'reserved mode': reserved_mode, 'odd length of 3F': odd_sixteen_bit, 'mode without a length': mode_alone,
              'block longer than the name': too_long, 'block one byte longer than the name': one_too_long}
WRONG = dict(WRONG_ENDS, **{'no bytes': no_text})


def wrong_text(dice, how=None):
    """Text that breaks the rule, perhaps only behind right blocks."""
    how = how or dice.one(sorted(WRONG))
    front = any_text(dice, 9) if how in WRONG_ENDS and dice.chance(2) else b''
    return front + WRONG[how](dice)


# ------------------------------------------------------------------------ languages

ENGLISH = b'eng'        # what the boxes of these generators are started with, if nothing else is said
OTHER_LANGUAGES = (b'fra', b'ENG', b'Eng', b'enG', b'en\0', b'\0\0\0', b'\xFF\xFF\xFF', b'gne', b'nge', b'enh', b'fng')


def any_language(dice):
    return ENGLISH if dice.chance(3) else dice.one(OTHER_LANGUAGES) if dice.chance(2) else dice.bytes(3)


def another_language(dice, language):
    """Most of them one bit away, in any of the three bytes."""
    if dice.chance(3):
        return dice.one([each for each in OTHER_LANGUAGES + (ENGLISH,) if each != language])
    other = bytearray(language)
    other[dice.below(3)] ^= 1 << dice.below(8)
    return bytes(other)
