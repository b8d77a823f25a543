/* The label of a channel: its name in the store, or a fallback that is lent. */
#ifndef PLAIN_LABEL_H
#define PLAIN_LABEL_H

#include "bytes.h"

/* The same interface as trial_label (three parts of an answer) and trial_shown (the bytes of a label, where they have
   room, and how many they are). */
uint64_t plain_label(const uint8_t *state, size_t state_length, const uint8_t *store, size_t store_length,
                     uint16_t channel, uint32_t part);
uint64_t plain_shown(const uint8_t *state, size_t state_length, const uint8_t *store, size_t store_length,
                     const uint8_t *fallback, size_t fallback_length, uint16_t channel, uint8_t *out,
                     size_t out_length);

#endif
