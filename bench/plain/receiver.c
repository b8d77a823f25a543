#include "receiver.h"

static const struct holding fresh = {.half = 1};

void plain_start_receiver(struct receiver *receiver, uint16_t map, uint32_t language) {
    receiver->map = map;
    receiver->language = language;
    for (int table = 0; table < TABLES; table++)
        receiver->tables[table] = fresh;
}

/* Sections 0 to last, as held has them. */
static inline uint32_t all_to(uint32_t last) {
    return (2u << last) - 1;
}

/* No byte has a bit above its field; then the rules between the fields. */
static inline int well_formed(const uint8_t *bytes, struct holding h) {
    static const uint64_t outside = ~0x010F031F01031F01u;
    if (load64(bytes) & outside)
        return 0;
    if (!h.live && (h.live_version | h.live_last))
        return 0;
    if (!h.gathering)
        return !(h.version | h.last | h.held);
    if (h.held - 1u >= all_to(h.last) - 1)          /* empty, complete or beyond last */
        return 0;
    return !(h.live && h.live_version == h.version);
}

static inline uint16_t map_of(const uint8_t *state) {
    return (uint16_t)(state[0] | state[1] << 8);
}

/* By a load of four bytes that begins in front of it. */
static inline uint32_t language_of(const uint8_t *state) {
    return load32(state + LANGUAGE_AT - 1) >> 8;
}

uint32_t plain_receiver_from(struct receiver *receiver, const uint8_t *state, size_t store_length) {
    if (store_length < STORE)
        return 1;
    receiver->map = map_of(state);
    receiver->language = language_of(state);
    memcpy(receiver->tables, state + TABLES_AT, sizeof receiver->tables);
    for (int table = 0; table < TABLES; table++)
        if (!well_formed(state + TABLES_AT + HOLDING * table, receiver->tables[table]))
            return 2;
    return 0;
}

/* Steps 5 and 6 of a section that is neither refused nor held. */
static inline struct answer hold(struct holding *h, int joins, const struct section_head *head) {
    uint32_t held = (joins ? h->held : 0) | 1u << head->number;
    if (held == all_to(head->last)) {
        *h = (struct holding){.live = 1, .live_version = (uint8_t)head->version, .live_last = (uint8_t)head->last,
                              .half = h->half ^ 1};
        return (struct answer){LIVE, head->version};
    }
    h->gathering = 1;
    h->version = (uint8_t)head->version;
    h->last = (uint8_t)head->last;
    h->held = (uint8_t)held;
    /* four numbers at most: the bits of held are counted by a look at a nibble's count */
    return (struct answer){STORED, head->last + 1 - (0x4332322132212110u >> 4 * held & 15)};
}

struct answer plain_offer_section(struct receiver *receiver, uint8_t *store, const uint8_t *section, size_t length) {
    struct section_head head;
    uint32_t refusal = plain_read_section(section, length, &head);
    if (refusal)
        return (struct answer){REFUSED, refusal};
    if (!is_ours(receiver, head.table, section))
        return (struct answer){OTHER_MAP, 0};
    if (head.last >= SECTIONS)
        return (struct answer){REFUSED, 12};
    struct holding *h = &receiver->tables[head.table];
    int is_live = h->live && h->live_version == head.version, joins = h->gathering && h->version == head.version;
    if ((is_live && h->live_last != head.last) || (joins && h->last != head.last))
        return (struct answer){REFUSED, 13};
    if (is_live || (joins && h->held >> head.number & 1))
        return (struct answer){REPEAT, 0};
    memcpy(store + place_at(head.table, h->half ^ 1, head.number), section, length);
    return hold(h, joins, &head);
}

enum part { MAP_PART, CDS_PART, LANGUAGE_PART = CDS_PART + TABLES, ANSWER_PART };

static uint64_t part_of(const struct receiver *receiver, uint32_t part) {
    uint64_t eight;
    if (part == MAP_PART)
        return receiver->map;
    if (part == LANGUAGE_PART)
        return receiver->language;
    memcpy(&eight, &receiver->tables[part - CDS_PART], sizeof eight);
    return eight;
}

uint64_t plain_start(uint16_t map, const uint8_t *language, size_t language_length, uint32_t part) {
    struct receiver receiver;
    uint8_t bytes[4] = {0};
    if (part >= ANSWER_PART)
        return 0;
    memcpy(bytes, language, language_length < LANGUAGE_BYTES ? language_length : LANGUAGE_BYTES);
    plain_start_receiver(&receiver, map, load32(bytes));
    return part_of(&receiver, part);
}

static uint64_t part_before(const uint8_t *state, uint32_t part) {
    if (part == MAP_PART)
        return map_of(state);
    return part == LANGUAGE_PART ? language_of(state) : load64(state + TABLES_AT + HOLDING * (part - CDS_PART));
}

uint64_t plain_offer(const uint8_t *state, size_t state_length, uint8_t *store, size_t store_length,
                     const uint8_t *section, size_t section_length, uint32_t part) {
    (void)state_length;         /* a state is always STATE bytes */
    struct receiver receiver;
    uint32_t refusal = plain_receiver_from(&receiver, state, store_length);
    if (refusal)
        return part >= ANSWER_PART ? (uint64_t)refusal << 8 : part_before(state, part);
    struct answer answer = plain_offer_section(&receiver, store, section, section_length);
    return part >= ANSWER_PART ? answer.kind | answer.value << 8 : part_of(&receiver, part);
}
