/* From a channel number to what the tuner needs. */
#ifndef PLAIN_TUNER_H
#define PLAIN_TUNER_H

#include "bytes.h"

enum { LEAST_KHZ = 54000, MOST_KHZ = 1002000 };

static inline uint32_t in_khz(uint32_t number, uint32_t unit_bit) {
    return number * (unit_bit ? 125 : 10);
}

/* Of a CDS record. */
static inline uint32_t first_khz(const uint8_t *record) {
    uint32_t first = word(record + 3);
    return in_khz(first & 0x7FFF, first >> 15);
}

static inline uint32_t spacing_khz(const uint8_t *record) {
    uint32_t spacing = word(record + 1);
    return in_khz(spacing & 0x3FFF, spacing >> 15);
}

static inline int is_in_range(uint32_t khz) {
    return khz - LEAST_KHZ <= MOST_KHZ - LEAST_KHZ;
}

/* Of a mode record. */
static inline uint32_t symbols(const uint8_t *record) {
    return word(record + 2) << 16 | word(record + 4);
}

/* The same interface as trial_check (1, 2, 15 or 16, or 0) and trial_tune (three parts of an answer). */
uint8_t plain_check(const uint8_t *state, size_t state_length, const uint8_t *store, size_t store_length);
uint64_t plain_tune(const uint8_t *state, size_t state_length, const uint8_t *store, size_t store_length,
                    uint16_t channel, uint32_t part);

#endif
