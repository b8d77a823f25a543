#include "tuner.h"

#include "places.h"

enum tuned_kind { NOT_TUNED, DIGITAL, ANALOGUE, APPLICATION };

/* What the live places hold for one channel; a record that isn't there is null. */
struct search {
    struct entry entry;
    const uint8_t *carriers, *mode;
    uint32_t carrier;
};

struct tuned {
    uint64_t parts[3];
};

/* The channel map goes first: what is wanted of carriers and modes stands in its record. A reference 0 is no index. */
static int find(const struct receiver *r, const uint8_t *store, uint32_t channel, struct search *s) {
    struct walk found;
    if (!find_channel(r, store, channel, &s->entry))
        return 0;
    const uint8_t *record = s->entry.record;
    if (!read_places(r, store, CDS, record ? record[5] : 0, &found))
        return 0;
    s->carriers = found.record;
    s->carrier = found.behind;
    if (!read_places(r, store, MMS, record ? record[8] : 0, &found))
        return 0;
    s->mode = found.record;
    return 1;
}

static inline struct tuned refused(uint32_t number) {
    return (struct tuned){{NOT_TUNED | (uint64_t)number << 8}};
}

static inline uint64_t front(uint32_t kind, const uint8_t *channel, uint32_t khz) {
    return kind | (uint64_t)(channel[2] & 1) << 8 | (uint64_t)(channel[2] >> 5 & 1) << 16 | (uint64_t)khz << 32;
}

static inline struct tuned analogue(const uint8_t *channel, uint32_t khz) {
    uint64_t fields = (uint64_t)(channel[6] & 15) | (uint64_t)(channel[6] >> 7) << 8;
    return (struct tuned){{front(ANALOGUE, channel, khz), fields, 0}};
}

static inline struct tuned digital(const uint8_t *channel, uint32_t khz, const uint8_t *mode) {
    uint64_t fields = word(channel + 6) | (uint64_t)(mode[0] >> 4) << 16 | (uint64_t)(mode[0] & 15) << 24
                    | (uint64_t)(mode[1] >> 7) << 32 | (uint64_t)(mode[1] & 31) << 40;
    return (struct tuned){{front(DIGITAL, channel, khz), fields, symbols(mode)}};
}

/* 17 to 21, of what was found. */
static struct tuned tuned_by(const struct search *s) {
    const uint8_t *channel = s->entry.record;
    uint32_t refusal = refusal_of_entry(&s->entry);
    if (refusal)
        return refused(refusal);
    if (channel[2] & 0x80)
        return (struct tuned){{front(APPLICATION, channel, 0), word(channel + 3), 0}};
    if (!s->carriers)
        return refused(19);
    uint32_t khz = first_khz(s->carriers) + s->carrier * spacing_khz(s->carriers);
    if (!is_in_range(khz))
        return refused(20);
    if (channel[2] & 0x10)
        return analogue(channel, khz);
    return s->mode ? digital(channel, khz, s->mode) : refused(21);
}

static struct tuned tune(const uint8_t *state, const uint8_t *store, size_t store_length, uint32_t channel) {
    struct receiver r;
    struct search s;
    uint32_t refusal = refusal_of_question(&r, state, store_length, channel);
    if (refusal)
        return refused(refusal);
    return find(&r, store, channel, &s) ? tuned_by(&s) : refused(16);
}

uint64_t plain_tune(const uint8_t *state, size_t state_length, const uint8_t *store, size_t store_length,
                    uint16_t channel, uint32_t part) {
    (void)state_length;         /* a state is always STATE bytes */
    struct tuned answer = tune(state, store, store_length, channel);
    return answer.parts[part];
}

uint8_t plain_check(const uint8_t *state, size_t state_length, const uint8_t *store, size_t store_length) {
    (void)state_length;
    struct receiver r;
    struct walk found;
    uint32_t refusal = plain_receiver_from(&r, state, store_length);
    if (refusal)
        return (uint8_t)refusal;
    if (!all_live(&r))
        return 15;
    int reads = read_places(&r, store, CDS, NOTHING_WANTED, &found)
             && read_places(&r, store, MMS, NOTHING_WANTED, &found)
             && read_places(&r, store, VCM, NOTHING_WANTED, &found)
             && read_places(&r, store, DCM, NOTHING_WANTED, &found);
    return reads ? 0 : 16;
}
