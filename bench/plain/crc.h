/* The CRC of ISO/IEC 13818-1 Annex A, eight bytes at a time. The register is kept byte-swapped, as the tables are. */
#ifndef PLAIN_CRC_H
#define PLAIN_CRC_H

#include "bytes.h"
#include "crc_tables.h"

/* The four bytes of `bytes` through four tables, the last of which is for the last byte. */
static inline uint32_t looked_up(const uint32_t (*table)[256], uint32_t bytes) {
    uint32_t upper = bytes >> 16;
    return table[3][bytes & 255] ^ table[2][bytes >> 8 & 255] ^ table[1][upper & 255] ^ table[0][upper >> 8];
}

/* Over a whole section the register must be left 0. */
static inline int crc_is_right(const uint8_t *bytes, size_t length) {
    uint32_t crc = 0xFFFFFFFF;
    for (const uint8_t *behind = bytes + (length & ~(size_t)7); bytes < behind; bytes += 8)
        crc = looked_up(crc_table + 4, load32(bytes) ^ crc) ^ looked_up(crc_table, load32(bytes + 4));
    if (length & 4) {
        crc = looked_up(crc_table, load32(bytes) ^ crc);
        bytes += 4;
    }
    for (const uint8_t *behind = bytes + (length & 3); bytes < behind; bytes++)
        crc = crc >> 8 ^ crc_table[0][(crc ^ *bytes) & 255];
    return crc == 0;
}

#endif
