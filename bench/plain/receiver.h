/* Holding sections and going live. */
#ifndef PLAIN_RECEIVER_H
#define PLAIN_RECEIVER_H

#include "bytes.h"
#include "section.h"

enum { SECTIONS = 4, PLACE = 1024, STORE = TABLES * 2 * SECTIONS * PLACE };
/* Where the parts of a state stand in its bytes: map number, holdings, language. */
enum { HOLDING = 8, LANGUAGE_BYTES = 3, TABLES_AT = 2, LANGUAGE_AT = TABLES_AT + TABLES * HOLDING };
enum { STATE = LANGUAGE_AT + LANGUAGE_BYTES };
enum answer_kind { REFUSED, OTHER_MAP, REPEAT, STORED, LIVE };

/* One table, in the order of its eight bytes in a state; bit n of held: section n is held. */
struct holding {
    uint8_t live, live_version, live_last;
    uint8_t gathering, version, last, held;
    uint8_t half;
};
_Static_assert(sizeof(struct holding) == HOLDING, "a holding is its eight bytes in a state");

/* The language's first byte is the lowest. */
struct receiver {
    uint16_t map;
    struct holding tables[TABLES];
    uint32_t language;
};

struct answer {
    uint32_t kind, value;
};

void plain_start_receiver(struct receiver *receiver, uint16_t map, uint32_t language);

/* A well-formed receiver and a whole store. */
struct answer plain_offer_section(struct receiver *receiver, uint8_t *store, const uint8_t *section, size_t length);

/* 1 and 2; sets the receiver from the bytes of a state. */
uint32_t plain_receiver_from(struct receiver *receiver, const uint8_t *state, size_t store_length);

/* The same interface as trial_start and trial_offer: one part of the state, or the answer, for each call. */
uint64_t plain_start(uint16_t map, const uint8_t *language, size_t language_length, uint32_t part);
uint64_t plain_offer(const uint8_t *state, size_t state_length, uint8_t *store, size_t store_length,
                     const uint8_t *section, size_t section_length, uint32_t part);

/* Of what tuning needs, so without names. */
static inline int all_live(const struct receiver *r) {
    return r->tables[CDS].live & r->tables[MMS].live & r->tables[VCM].live & r->tables[DCM].live;
}

/* Of a section that reads right as one of this table: bytes 5 and 6 are a map number, or bytes 4 to 6 a language. */
static inline int is_ours(const struct receiver *receiver, uint32_t table, const uint8_t *section) {
    if (table == NTT)
        return load32(section + 3) >> 8 == receiver->language;
    return table < VCM || word(section + 5) == receiver->map;
}

static inline size_t place_at(uint32_t table, uint32_t half, uint32_t number) {
    return ((table * 2 + half) * SECTIONS + number) * PLACE;
}

#endif
