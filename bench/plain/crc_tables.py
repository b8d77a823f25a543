"""Mofrindi: writes the tables of crc.h as C to standard output.

Table k has, for each byte, what it adds to the register once k more bytes have gone by: eight bytes take eight looks
and no shift of the register. The entries are byte-swapped, so that a little-endian load of the section needs no swap of
its own.
"""

import sys

TABLES = 8
POLYNOMIAL = 0x04C11DB7


def shifted(register):
    """The register after eight zero bits."""
    for _ in range(8):
        register = (register << 1 ^ (POLYNOMIAL if register >> 31 else 0)) & 0xFFFFFFFF
    return register


def tables():
    table = [shifted(byte << 24) for byte in range(256)]
    for _ in range(TABLES):
        yield table
        table = [shifted(register) for register in table]


def swapped(register):
    return int.from_bytes(register.to_bytes(4, 'big'), 'little')


def main():
    if len(sys.argv) != 1:
        sys.exit('crc_tables.py: takes no arguments')
    print('static const uint32_t crc_table[%d][256] = {' % TABLES)
    for table in tables():
        rows = [table[at:at + 8] for at in range(0, 256, 8)]
        print('    {\n%s    },' % ''.join(
            '        %s,\n' % ', '.join('0x%08X' % swapped(register) for register in row) for row in rows))
    print('};')


if __name__ == '__main__':
    main()
