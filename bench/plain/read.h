/* The parts of reading a section around the walk over its records. */
#ifndef PLAIN_READ_H
#define PLAIN_READ_H

#include "crc.h"
#include "section.h"
#include "walk.h"

enum { NETWORK_TABLE = 0xC2, NAMES_TABLE, CHANNEL_TABLE, SOURCE_NAMES = 6, REVISION = 0x93, SHORTEST = 8 };

/* 3 to 6. */
static inline uint32_t refusal_of_frame(const uint8_t *section, size_t length) {
    if (length < SHORTEST || length > MOST_LENGTH || length != stated_length(section))
        return 3;
    if (section[0] - (uint32_t)NETWORK_TABLE > CHANNEL_TABLE - NETWORK_TABLE)
        return 4;
    if (!crc_is_right(section, length))
        return 5;
    return section[3] & 0x1F ? 6 : 0;
}

/* Bytes 0 to 6: 7, or 8 where its byte isn't there; then 8, 9 and 10 of the whole header. */
static inline uint32_t refusal_of_network_header(const uint8_t *section, size_t length) {
    if (length < HEADER + CRC_BYTES)
        return 8;
    if (section[6] - 1u > 1)
        return 7;
    if ((section[1] & 0xC0) | section[3])
        return 9;
    return section[4] == 0 ? 10 : 0;
}

static inline uint32_t refusal_of_channel_header(const uint8_t *section, size_t length) {
    if (length <= 4 + CRC_BYTES)
        return 8;
    if (section[4] > 1)
        return 7;
    if (length < HEADER + CRC_BYTES)
        return 8;
    return (section[1] & 0xC0) | section[3] ? 9 : 0;
}

static inline uint32_t refusal_of_names_header(const uint8_t *section, size_t length) {
    if (length < NAMES_HEADER + CRC_BYTES)
        return 8;
    if (section[7] != SOURCE_NAMES)
        return 7;
    return (section[1] & 0xC0) | section[3] ? 9 : 0;
}

/* The closing list, up to the CRC exactly: 8, and 11 behind all of it. */
static inline uint32_t read_closing_list(struct walk *w, struct section_head *head) {
    const uint8_t *revision = NULL;
    uint32_t revisions = 0;
    while (w->at < w->end) {
        const uint8_t *descriptor = w->at;
        size_t size = 2 + (size_t)descriptor[1];
        if (size > room(w))
            return 8;
        if (descriptor[0] == REVISION) {
            revision = descriptor;
            revisions++;
        }
        w->at += size;
    }
    if (revisions != 1 || revision[1] < 3 || revision[3] > revision[4])
        return 11;
    head->version = revision[2] & 0x1F;
    head->number = revision[3];
    head->last = revision[4];
    return 0;
}

static inline struct walk behind_header(const uint8_t *section, size_t length, size_t header) {
    return (struct walk){section + header, section + length - CRC_BYTES, NULL, 0};
}

#endif
