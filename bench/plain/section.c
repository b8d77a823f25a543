#include "section.h"

#include "read.h"

/* Behind the frame: the header, and the records up to the closing list. */
static inline uint32_t read_network_table(struct walk *w, const uint8_t *section, size_t length, uint32_t *table) {
    uint32_t refusal = refusal_of_network_header(section, length);
    if (refusal)
        return refusal;
    *w = behind_header(section, length, HEADER);
    *table = section[6] - 1u;
    return *table == CDS ? walk_cds(w, section, NOTHING_WANTED) : walk_mms(w, section, NOTHING_WANTED);
}

static inline uint32_t read_channel_table(struct walk *w, const uint8_t *section, size_t length, uint32_t *table) {
    uint32_t refusal = refusal_of_channel_header(section, length);
    if (refusal)
        return refusal;
    *w = behind_header(section, length, HEADER);
    *table = VCM + section[4];
    return *table == VCM ? walk_vcm(w, section, NOTHING_WANTED) : walk_dcm(w, section, NOTHING_WANTED);
}

static inline uint32_t read_names_table(struct walk *w, const uint8_t *section, size_t length, uint32_t *table) {
    uint32_t refusal = refusal_of_names_header(section, length);
    if (refusal)
        return refusal;
    *w = behind_header(section, length, NAMES_HEADER);
    *table = NTT;
    return walk_ntt(w, section, NOTHING_WANTED);
}

static inline uint32_t read_table(struct walk *w, const uint8_t *section, size_t length, uint32_t *table) {
    switch (section[0]) {
    case NETWORK_TABLE:
        return read_network_table(w, section, length, table);
    case NAMES_TABLE:
        return read_names_table(w, section, length, table);
    default:
        return read_channel_table(w, section, length, table);
    }
}

static inline uint32_t read_section(const uint8_t *section, size_t length, struct section_head *head) {
    struct walk w;
    uint32_t refusal = refusal_of_frame(section, length);
    if (refusal)
        return refusal;
    refusal = read_table(&w, section, length, &head->table);
    return refusal ? refusal : read_closing_list(&w, head);
}

uint32_t plain_read_section(const uint8_t *section, size_t length, struct section_head *head) {
    return read_section(section, length, head);
}

uint32_t plain_check_section(const uint8_t *section, size_t length) {
    struct section_head head;
    return read_section(section, length, &head);
}
