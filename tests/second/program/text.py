"""Mofrindi: the text rule of document 003, section 7.1, a second implementation: is this a Multilingual Text String?

Only the form is judged ("checked but not turned into glyphs"); characters are never looked at.

Readings
--------
Places where the documents leave more than one reading, and the one taken here:

 1. "One or more instances of mode, length, segment": an empty name breaks the rule.
 2. Table 7.4 has `mode <= 0x3F` in front of `mode == 0x3F`, which would never be met; the prose, Table 7.3 and
    document 000 have 0x3F as the 16-bit mode.  So its length is even.
 3. A mode that Table 7.3 marks reserved breaks the rule; a format effector that is reserved in Table 7.5 or not
    defined at all doesn't, since 7.1.2.3 has it discarded.
 4. Neither a segment nor the parameters of an effector need have a byte: Table 7.4 gives their length no range.
 5. Effectors are blocks like others, also where there is nothing else: 5.2 wants them disregarded, not refused.
"""

SIXTEEN_BIT = 0x3F
FIRST_EFFECTOR = 0x40           # up to 0x9F: one byte alone
FIRST_WITH_PARAMETERS = 0xA0    # up to 0xFF: a length and so many bytes follow

# Table 7.3: the first and last of each row that is marked reserved.
RESERVED = ((0x07, 0x08), (0x11, 0x1F), (0x28, 0x2F), (0x34, 0x3E))


def is_reserved(mode):
    return any(first <= mode <= last for first, last in RESERVED)


def block_end(data, at):
    """The place behind the block that begins here, which may lie behind the data; None if the block is wrong."""
    mode = data[at]
    if FIRST_EFFECTOR <= mode < FIRST_WITH_PARAMETERS:
        return at + 1
    if is_reserved(mode) or at + 1 == len(data):
        return None
    length = data[at + 1]
    if mode == SIXTEEN_BIT and length % 2 != 0:
        return None
    return at + 2 + length


def is_good(data):
    """One or more blocks that fill the data exactly."""
    at = 0
    while at is not None and at < len(data):
        at = block_end(data, at)
    return at == len(data) and len(data) > 0
