#include "plan.h"
#include "text.h"

static inline uint8_t *put_flags(uint8_t *at, const uint8_t *record) {
    at = PUT(at, " hidden=");
    at = put_digit(at, record[2] & 1);
    at = PUT(at, " path=");
    return put_digit(at, record[2] >> 5 & 1);
}

static inline uint8_t *put_mode(uint8_t *at, const uint8_t *mode) {
    at = PUT(at, " system=");
    at = put_digit(at, mode[0] >> 4);
    at = PUT(at, " inner=");
    at = put_number(at, mode[0] & 15);
    at = PUT(at, " split=");
    at = put_digit(at, mode[1] >> 7);
    at = PUT(at, " format=");
    at = put_number(at, mode[1] & 31);
    at = PUT(at, " symbols=");
    return put_number(at, symbols(mode));
}

static inline uint8_t *put_application(uint8_t *at, const uint8_t *record) {
    at = put_flags(PUT(at, " kind=application"), record);
    at = PUT(at, " application=");
    return put_number(at, word(record + 3));
}

static inline uint8_t *put_analogue(uint8_t *at, const uint8_t *record, uint32_t khz) {
    at = put_flags(PUT(at, " kind=analogue"), record);
    at = PUT(at, " khz=");
    at = put_number(at, khz);
    at = PUT(at, " standard=");
    at = put_digit(at, record[6] & 15);
    at = PUT(at, " scrambled=");
    return put_digit(at, record[6] >> 7);
}

static inline uint8_t *put_digital(uint8_t *at, const uint8_t *record, uint32_t khz, const uint8_t *mode) {
    at = put_flags(PUT(at, " kind=digital"), record);
    at = PUT(at, " khz=");
    at = put_number(at, khz);
    at = PUT(at, " program=");
    at = put_number(at, word(record + 6));
    return put_mode(at, mode);
}

static uint8_t *put_line(uint8_t *at, const struct plan *plan, const uint8_t *record) {
    at = PUT(at, "channel=");
    at = put_number(at, word(record));
    if (is_application(record))
        at = put_application(at, record);
    else if (is_analogue(record))
        at = put_analogue(at, record, plan->khz[record[5]]);
    else
        at = put_digital(at, record, plan->khz[record[5]], plan->mode[record[8]]);
    return PUT(at, "\n");
}

static uint8_t *put_front(uint8_t *at, const struct stream *s) {
    const struct holding *tables = s->receiver.tables;
    at = put_number(PUT(at, "lineup=1\nmap="), s->receiver.map);
    at = put_long_number(PUT(at, "\nsections="), s->sections);
    at = put_long_number(PUT(at, "\nrefused="), s->refused);
    at = put_version(PUT(at, "\ncds="), &tables[CDS]);
    at = put_version(PUT(at, "\nmms="), &tables[MMS]);
    at = put_version(PUT(at, "\nvcm="), &tables[VCM]);
    at = put_version(PUT(at, "\ndcm="), &tables[DCM]);
    at = put_version(PUT(at, "\nntt="), &tables[NTT]);
    return PUT(at, "\nchannels=");
}

static size_t print(const struct stream *s, uint8_t *out) {
    static struct plan plan;
    static const uint8_t *selected[MOST_SELECTED + 1];
    uint32_t channels = select_channels(&plan, s, selected);
    uint8_t *at = put_front(out, s);
    at = PUT(put_number(at, channels), "\n");
    for (uint32_t line = 0; line < channels; line++)
        at = put_line(at, &plan, selected[line]);
    return (size_t)(at - out);
}

static size_t print_refused(uint8_t *out) {
    return (size_t)(PUT(out, "lineup=refused\n") - out);
}

/* A line has at most 122 bytes, four channel maps have at most 111 records each, the front has at most 150 bytes. */
const struct text plain_lineup_text = {print, print_refused, 65536};
