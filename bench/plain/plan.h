/* Each table is walked once into a table by index or channel, the first match first; then the channels that are defined
   and have a record are looked at in ascending order. The sections in the store were checked when they were held, and
   nothing but the receiver writes there: they are not checked a second time. */
#ifndef PLAIN_PLAN_H
#define PLAIN_PLAN_H

#include "stream.h"
#include "tuner.h"

enum { INDICES = MOST_INDEX + 1, CHANNELS = MOST_CHANNEL + 1, WORDS = CHANNELS / 64 };
enum { MOST_SELECTED = SECTIONS * 111 };

/* More than any carrier has, and out of range. */
static const uint32_t no_carrier = 0xFFFFFFFF;

/* A channel's record counts where its bit of recorded is set; a mode that isn't there is null. */
struct plan {
    uint32_t khz[INDICES];
    const uint8_t *mode[INDICES];
    const uint8_t *record[CHANNELS];
    uint64_t recorded[WORDS], covered[WORDS], defined[WORDS];
};

static inline const uint8_t *behind_record(const uint8_t *record, uint32_t size) {
    const uint8_t *at = record + size + 1;
    for (uint32_t descriptors = record[size]; descriptors > 0; descriptors--)
        at += 2 + at[1];
    return at;
}

static void plan_carriers(struct plan *plan, const uint8_t *section) {
    const uint8_t *record = section + HEADER;
    uint32_t index = section[4];
    for (uint32_t left = section[5]; left > 0; left--) {
        uint32_t khz = first_khz(record), spacing = spacing_khz(record);
        for (uint32_t behind = index + record[0]; index < behind; index++, khz += spacing)
            if (plan->khz[index] == no_carrier)
                plan->khz[index] = khz;
        record = behind_record(record, CDS_RECORD);
    }
}

static void plan_modes(struct plan *plan, const uint8_t *section) {
    const uint8_t *record = section + HEADER;
    for (uint32_t index = section[4], behind = index + section[5]; index < behind; index++) {
        if (!plan->mode[index])
            plan->mode[index] = record;
        record = behind_record(record, MMS_RECORD);
    }
}

static void plan_channels(struct plan *plan, const uint8_t *section) {
    const uint8_t *record = section + HEADER + VCM_HEAD;
    int listed = section[7] != 0;
    for (uint32_t left = section[13]; left > 0; left--) {
        uint32_t channel = word(record);
        uint64_t bit = 1ull << channel % 64;
        if (!(plan->recorded[channel / 64] & bit)) {
            plan->recorded[channel / 64] |= bit;
            plan->record[channel] = record;
        }
        record = listed ? behind_record(record, VCM_RECORD) : record + VCM_RECORD;
    }
}

/* A word of 64 channels at a time. */
static inline void cover(struct plan *plan, uint32_t first, uint32_t channels, uint32_t defined) {
    for (uint32_t here; channels > 0; first += here, channels -= here) {
        uint32_t low = first % 64;
        here = channels < 64 - low ? channels : 64 - low;
        uint64_t bits = ~0ull >> (64 - here) << low;
        if (defined)
            plan->defined[first / 64] |= bits & ~plan->covered[first / 64];
        plan->covered[first / 64] |= bits;
    }
}

static void plan_ranges(struct plan *plan, const uint8_t *section) {
    uint32_t channel = word(section + 7);
    const uint8_t *range = section + HEADER + DCM_HEAD;
    for (const uint8_t *behind = range + section[9]; range < behind; range++) {
        cover(plan, channel, *range & 0x7F, *range & 0x80);
        channel += *range & 0x7F;
    }
}

static void plan_table(struct plan *plan, const struct stream *s, uint32_t table,
                       void (*add)(struct plan *, const uint8_t *)) {
    const struct holding *h = &s->receiver.tables[table];
    for (uint32_t number = 0; number <= h->live_last; number++)
        add(plan, s->store + place_at(table, h->half, number));
}

static void make_plan(struct plan *plan, const struct stream *s) {
    memset(plan->khz, 0xFF, sizeof plan->khz);
    memset(plan->mode, 0, sizeof plan->mode);
    memset(plan->recorded, 0, sizeof plan->recorded);
    memset(plan->covered, 0, sizeof plan->covered);
    memset(plan->defined, 0, sizeof plan->defined);
    plan_table(plan, s, CDS, plan_carriers);
    plan_table(plan, s, MMS, plan_modes);
    plan_table(plan, s, VCM, plan_channels);
    plan_table(plan, s, DCM, plan_ranges);
}

static inline int is_application(const uint8_t *record) {
    return record[2] & 0x80;
}

static inline int is_analogue(const uint8_t *record) {
    return record[2] & 0x10;
}

/* A reference 0 finds nothing: no index is 0. */
static inline int tunes(const struct plan *plan, const uint8_t *record) {
    return is_application(record)
        || (is_in_range(plan->khz[record[5]]) && (is_analogue(record) || plan->mode[record[8]]));
}

/* The records of the channels of a line-up, ascending; how many. */
static uint32_t select_records(const struct plan *plan, const uint8_t **selected) {
    uint32_t count = 0;
    for (uint32_t w = 0; w < WORDS; w++)
        for (uint64_t left = plan->recorded[w] & plan->defined[w]; left; left &= left - 1) {
            const uint8_t *record = plan->record[64 * w + (uint32_t)__builtin_ctzll(left)];
            selected[count] = record;
            count += tunes(plan, record) != 0;
        }
    return count;
}

/* The same, of a stream; there is room for MOST_SELECTED and one more. */
static uint32_t select_channels(struct plan *plan, const struct stream *s, const uint8_t **selected) {
    if (!all_live(&s->receiver))
        return 0;
    make_plan(plan, s);
    return select_records(plan, selected);
}

#endif
