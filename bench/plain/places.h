/* What tuning and labels share: a question's checks, and the live places, read again and searched in one pass. */
#ifndef PLAIN_PLACES_H
#define PLAIN_PLACES_H

#include "read.h"
#include "receiver.h"

/* 1, 2, 14 and 15. */
static inline uint32_t refusal_of_question(struct receiver *r, const uint8_t *state, size_t store_length,
                                           uint32_t channel) {
    uint32_t refusal = plain_receiver_from(r, state, store_length);
    if (refusal)
        return refusal;
    if (channel > MOST_CHANNEL)
        return 14;
    return all_live(r) ? 0 : 15;
}

static inline uint32_t walk_table(uint32_t table, struct walk *w, const uint8_t *section, uint32_t wanted) {
    switch (table) {
    case CDS:
        return walk_cds(w, section, wanted);
    case MMS:
        return walk_mms(w, section, wanted);
    case VCM:
        return walk_vcm(w, section, wanted);
    case DCM:
        return walk_dcm(w, section, wanted);
    default:
        return walk_ntt(w, section, wanted);
    }
}

/* By number and subtype, and a header that reads right. */
static inline int is_of_table(const uint8_t *place, size_t length, uint32_t table) {
    if (table == NTT)
        return place[0] == NAMES_TABLE && !refusal_of_names_header(place, length);
    if (table < VCM)
        return place[0] == NETWORK_TABLE && !refusal_of_network_header(place, length) && place[6] - 1u == table - CDS;
    return place[0] == CHANNEL_TABLE && !refusal_of_channel_header(place, length) && place[4] == table - VCM;
}

/* Reads a live place as what it must be, and looks for what is wanted in the same pass: 0 where it no longer reads
   right. */
static inline int read_place(const struct receiver *r, const uint8_t *place, uint32_t table, uint32_t number,
                             uint32_t wanted, struct walk *w) {
    struct section_head head;
    size_t length = stated_length(place);
    if (refusal_of_frame(place, length) || !is_of_table(place, length, table))
        return 0;
    *w = behind_header(place, length, table == NTT ? NAMES_HEADER : HEADER);
    if (walk_table(table, w, place, wanted) || read_closing_list(w, &head))
        return 0;
    const struct holding *h = &r->tables[table];
    return head.version == h->live_version && head.number == number && head.last == h->live_last
        && is_ours(r, table, place);
}

/* All live places of a table, the lowest first; `found` is the first match of all. */
static inline int read_places(const struct receiver *r, const uint8_t *store, uint32_t table, uint32_t wanted,
                              struct walk *found) {
    const struct holding *h = &r->tables[table];
    const uint8_t *place = store + place_at(table, h->half, 0);
    found->record = NULL;
    for (uint32_t number = 0; number <= h->live_last; number++, place += PLACE) {
        struct walk w;
        if (!read_place(r, place, table, number, wanted, &w))
            return 0;
        if (wanted != NOTHING_WANTED && w.record && !found->record)
            *found = w;
    }
    return 1;
}

/* The first record of a channel and the first range with it; null where there is none. */
struct entry {
    const uint8_t *record, *range;
};

static inline int find_channel(const struct receiver *r, const uint8_t *store, uint32_t channel, struct entry *entry) {
    struct walk found;
    if (!read_places(r, store, VCM, channel, &found))
        return 0;
    entry->record = found.record;
    if (!read_places(r, store, DCM, channel, &found))
        return 0;
    entry->range = found.record;
    return 1;
}

/* 17 and 18. */
static inline uint32_t refusal_of_entry(const struct entry *entry) {
    if (!entry->range || !(*entry->range & 0x80))
        return 17;
    return entry->record ? 0 : 18;
}

#endif
