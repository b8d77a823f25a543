/* Numbers out of bytes that may stand at any address. */
#ifndef PLAIN_BYTES_H
#define PLAIN_BYTES_H

#include <stdint.h>
#include <string.h>

_Static_assert(__BYTE_ORDER__ == __ORDER_LITTLE_ENDIAN__,
               "the tables of crc.h and bits_of_bytes are for little-endian loads");

static inline uint32_t load32(const uint8_t *bytes) {
    uint32_t n;
    memcpy(&n, bytes, sizeof n);
    return n;
}

static inline uint64_t load64(const uint8_t *bytes) {
    uint64_t n;
    memcpy(&n, bytes, sizeof n);
    return n;
}

/* The highest byte first, as in a section. */
static inline uint32_t word(const uint8_t *bytes) {
    return (uint32_t)bytes[0] << 8 | bytes[1];
}

/* Bits of four bytes that stand in this order, for a test of all of them by one load. */
static inline uint32_t bits_of_bytes(uint8_t first, uint8_t second, uint8_t third, uint8_t fourth) {
    return first | (uint32_t)second << 8 | (uint32_t)third << 16 | (uint32_t)fourth << 24;
}

#endif
