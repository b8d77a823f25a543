#include "label.h"

#include "places.h"

enum label_kind { NO_LABEL, NAMED, FALLBACK };

/* A name's record where the kind is NAMED. */
struct label {
    uint32_t kind, refusal;
    const uint8_t *record;
};

/* Carriers and modes are read and not searched: a channel without them has a label, and no record of theirs is left
   in `name`. Names that aren't live are not read. */
static int find(const struct receiver *r, const uint8_t *store, uint32_t channel, struct entry *entry,
                struct walk *name) {
    if (!find_channel(r, store, channel, entry) || !read_places(r, store, CDS, NOTHING_WANTED, name)
        || !read_places(r, store, MMS, NOTHING_WANTED, name))
        return 0;
    uint32_t wanted = entry->record ? wanted_name(entry->record + 2) : NOTHING_WANTED;
    return !r->tables[NTT].live || read_places(r, store, NTT, wanted, name);
}

static inline struct label refused(uint32_t number) {
    return (struct label){NO_LABEL, number, NULL};
}

static struct label ask(const uint8_t *state, const uint8_t *store, size_t store_length, uint32_t channel) {
    struct receiver r;
    struct entry entry;
    struct walk name;
    uint32_t refusal = refusal_of_question(&r, state, store_length, channel);
    if (refusal)
        return refused(refusal);
    if (!find(&r, store, channel, &entry, &name))
        return refused(16);
    refusal = refusal_of_entry(&entry);
    if (refusal)
        return refused(refusal);
    return (struct label){name.record ? NAMED : FALLBACK, 0, name.record};
}

uint64_t plain_label(const uint8_t *state, size_t state_length, const uint8_t *store, size_t store_length,
                     uint16_t channel, uint32_t part) {
    (void)state_length;         /* a state is always STATE bytes */
    struct label label = ask(state, store, store_length, channel);
    if (part == 0)
        return label.kind | label.refusal << 8;
    if (part > 2 || label.kind != NAMED)
        return 0;
    return part == 1 ? (uint64_t)(label.record + NTT_RECORD - store) : label.record[3];
}

uint64_t plain_shown(const uint8_t *state, size_t state_length, const uint8_t *store, size_t store_length,
                     const uint8_t *fallback, size_t fallback_length, uint16_t channel, uint8_t *out,
                     size_t out_length) {
    (void)state_length;
    struct label label = ask(state, store, store_length, channel);
    if (label.kind == NO_LABEL)
        return 0;
    const uint8_t *bytes = label.kind == NAMED ? label.record + NTT_RECORD : fallback;
    size_t length = label.kind == NAMED ? label.record[3] : fallback_length;
    if (length <= out_length)
        memcpy(out, bytes, length);
    return length;
}
