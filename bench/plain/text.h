/* Text and decimal numbers put into a buffer; each answers where the next byte goes. */
#ifndef PLAIN_TEXT_H
#define PLAIN_TEXT_H

#include "receiver.h"

/* The size is a constant, so that short texts become a few stores. */
#define PUT(at, text) put_bytes((at), (text), sizeof(text) - 1)

static inline uint8_t *put_bytes(uint8_t *at, const char *text, size_t size) {
    memcpy(at, text, size);
    return at + size;
}

static inline uint8_t *put_digit(uint8_t *at, uint32_t digit) {
    *at = (uint8_t)('0' + digit);
    return at + 1;
}

static const char digit_pairs[] = "00010203040506070809101112131415161718192021222324252627282930313233343536373839"
                                  "40414243444546474849505152535455565758596061626364656667686970717273747576777879"
                                  "8081828384858687888990919293949596979899";

/* n's bits give its digits or one more: 1233 / 4096 is just above log10(2). */
static inline uint32_t digits_of(uint32_t n) {
    static const uint32_t powers[] = {1, 10, 100, 1000, 10000, 100000, 1000000, 10000000, 100000000, 1000000000};
    uint32_t most = (32 - (uint32_t)__builtin_clz(n)) * 1233 >> 12;
    return most + (n >= powers[most]);
}

/* Two digits for each division, from the last ones on. */
static inline uint8_t *put_number(uint8_t *at, uint32_t n) {
    if (n < 10)
        return put_digit(at, n);
    uint8_t *behind = at + digits_of(n), *to = behind;
    for (; n >= 100; n /= 100) {
        to -= 2;
        memcpy(to, digit_pairs + n % 100 * 2, 2);
    }
    if (n >= 10)
        memcpy(to - 2, digit_pairs + n * 2, 2);
    else
        to[-1] = (uint8_t)('0' + n);
    return behind;
}

static inline uint8_t *put_long_number(uint8_t *at, uint64_t n) {
    if (n <= 0xFFFFFFFF)
        return put_number(at, (uint32_t)n);
    at = put_long_number(at, n / 1000000000);
    for (uint32_t rest = (uint32_t)(n % 1000000000), power = 100000000; power > 0; power /= 10)
        at = put_digit(at, rest / power % 10);
    return at;
}

/* Of a table that is live, or that it isn't. */
static inline uint8_t *put_version(uint8_t *at, const struct holding *h) {
    return h->live ? put_number(at, h->live_version) : PUT(at, "none");
}

#endif
