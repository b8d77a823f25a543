#include "plan.h"
#include "text.h"

enum { KEYS = 2 * 65536, MOST_NAMES = SECTIONS * 167 };

/* The first record of each flag and number, in the order of the table; `at` has its place there. An entry of `at`
   counts where the record at that place has its key, so that the entries need no value to begin with. */
struct names {
    uint32_t count;
    const uint8_t *record[MOST_NAMES];
    uint16_t at[KEYS];
};

/* Of a record of names, or of a channel's record, from the flag on. */
static inline uint32_t key_of(const uint8_t *flag) {
    return (uint32_t)(flag[0] >> 7) << 16 | word(flag + 1);
}

static inline const uint8_t *name_with(const struct names *names, uint32_t key) {
    uint32_t at = names->at[key];
    return at < names->count && key_of(names->record[at]) == key ? names->record[at] : NULL;
}

static void add_names(struct names *names, const uint8_t *section) {
    const uint8_t *record = section + NAMES_HEADER + NTT_HEAD;
    for (uint32_t left = section[NAMES_HEADER]; left > 0; left--) {
        uint32_t key = key_of(record);
        if (!name_with(names, key)) {
            names->at[key] = (uint16_t)names->count;
            names->record[names->count++] = record;
        }
        record = behind_record(record, NTT_RECORD + record[3]);
    }
}

static void plan_names(struct names *names, const struct stream *s) {
    const struct holding *h = &s->receiver.tables[NTT];
    names->count = 0;
    if (h->live)
        for (uint32_t number = 0; number <= h->live_last; number++)
            add_names(names, s->store + place_at(NTT, h->half, number));
}

static inline uint8_t *put_hexadecimal(uint8_t *at, const uint8_t *bytes, uint32_t count) {
    static const char digits[] = "0123456789ABCDEF";
    for (const uint8_t *behind = bytes + count; bytes < behind; bytes++) {
        *at++ = (uint8_t)digits[*bytes >> 4];
        *at++ = (uint8_t)digits[*bytes & 15];
    }
    return at;
}

static uint8_t *put_line(uint8_t *at, const struct names *names, const uint8_t *record) {
    const uint8_t *name = name_with(names, key_of(record + 2));
    at = put_number(PUT(at, "channel="), word(record));
    at = PUT(at, " label=");
    if (name)
        at = put_hexadecimal(at, name + NTT_RECORD, name[3]);
    return PUT(at, "\n");
}

static size_t print(const struct stream *s, uint8_t *out) {
    static struct plan plan;
    static struct names names;
    static const uint8_t *selected[MOST_SELECTED + 1];
    uint32_t channels = select_channels(&plan, s, selected);
    plan_names(&names, s);
    uint8_t *at = put_number(PUT(out, "labels=1\nmap="), s->receiver.map);
    at = put_version(PUT(at, "\nntt="), &s->receiver.tables[NTT]);
    at = PUT(put_number(PUT(at, "\nchannels="), channels), "\n");
    for (uint32_t line = 0; line < channels; line++)
        at = put_line(at, &names, selected[line]);
    return (size_t)(at - out);
}

static size_t print_refused(uint8_t *out) {
    return (size_t)(PUT(out, "labels=refused\n") - out);
}

/* A line has at most 530 bytes, and there are as many as in the line-up. */
const struct text plain_labels_text = {print, print_refused, MOST_TEXT};
