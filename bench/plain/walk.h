/* The walks over the records of the five tables, front to back, each record taken whole: 8 before 9 before 10. A walk
   also finds the record that is wanted, in the same pass; where nothing is wanted (a constant) the compiler leaves the
   search out.

   `end` is where the CRC begins. Its four bytes can be read like any others, so that a length byte behind the last
   whole descriptor is looked at before the room for it: whatever it says, the descriptor doesn't fit. The same goes for
   the length of a name, and for the length of a block behind the last whole one of its name. */
#ifndef PLAIN_WALK_H
#define PLAIN_WALK_H

#include "bytes.h"
#include "section.h"

/* An index, a channel, or what wanted_name gives; these are below it. */
enum { NOTHING_WANTED = 0x1000000 };

/* `at` goes from a record to the next one; record is the wanted one, or null; behind counts from its first index or
   channel. */
struct walk {
    const uint8_t *at, *end;
    const uint8_t *record;
    uint32_t behind;
};

static inline size_t room(const struct walk *w) {
    return (size_t)(w->end - w->at);
}

static inline int pass_descriptors(struct walk *w, uint32_t count) {
    for (; count > 0; count--) {
        size_t size = 2 + (size_t)w->at[1];
        if (size > room(w))
            return 0;
        w->at += size;
    }
    return 1;
}

/* A record was `size` bytes with its descriptor count. */
static inline int pass_record(struct walk *w, size_t size) {
    uint32_t descriptors = w->at[size - 1];
    w->at += size;
    return descriptors == 0 || pass_descriptors(w, descriptors);
}

/* What is refused of a record behind which the descriptor count is missing, by what was found of its bits and
   values. */
static inline uint32_t without_count(uint32_t refusal) {
    return refusal ? refusal : 8;
}

/* `left` is how many indices there are from this record on, so that "carriers 0" and "an index above 255" are one
   test. */
static inline uint32_t refusal_of_carriers(const uint8_t *record, uint32_t left) {
    if (record[1] & 0x40)
        return 9;
    return record[0] - 1u >= left ? 10 : 0;
}

static inline uint32_t walk_cds(struct walk *w, const uint8_t *section, uint32_t wanted) {
    uint32_t left = MOST_INDEX + 1u - section[4], ahead = wanted - section[4];
    for (uint32_t records = section[5]; records > 0; records--) {
        if (room(w) < CDS_RECORD + 1)
            return room(w) < CDS_RECORD ? 8 : without_count(refusal_of_carriers(w->at, left));
        uint32_t refusal = refusal_of_carriers(w->at, left), carriers = w->at[0];
        if (refusal)
            return refusal;
        if (wanted != NOTHING_WANTED && ahead < carriers) {
            w->record = w->at;
            w->behind = ahead;
        }
        left -= carriers;
        ahead -= carriers;
        if (!pass_record(w, CDS_RECORD + 1))
            return 8;
    }
    return 0;
}

/* A mode record's first byte, system and inner coding: whether both are assigned. */
#define CODINGS_OF(system)                                                                                         \
    [16 * system] = 1, [16 * system + 1] = 1, [16 * system + 3] = 1, [16 * system + 5] = 1, [16 * system + 7] = 1, \
    [16 * system + 8] = 1, [16 * system + 9] = 1, [16 * system + 11] = 1, [16 * system + 15] = 1
static const uint8_t is_assigned[256] = {CODINGS_OF(0), CODINGS_OF(2), CODINGS_OF(3), CODINGS_OF(4)};
enum { MOST_FORMAT = 24 };

static inline uint32_t refusal_of_mode(const uint8_t *record, uint32_t left) {
    if (load32(record) & bits_of_bytes(0, 0x60, 0xF0, 0))
        return 9;
    return left == 0 || (record[1] & 0x1F) > MOST_FORMAT || !is_assigned[record[0]] ? 10 : 0;
}

static inline uint32_t walk_mms(struct walk *w, const uint8_t *section, uint32_t wanted) {
    uint32_t left = MOST_INDEX + 1u - section[4], ahead = wanted - section[4];
    for (uint32_t records = section[5]; records > 0; records--) {
        if (room(w) < MMS_RECORD + 1)
            return room(w) < MMS_RECORD ? 8 : without_count(refusal_of_mode(w->at, left));
        uint32_t refusal = refusal_of_mode(w->at, left);
        if (refusal)
            return refusal;
        if (wanted != NOTHING_WANTED && ahead-- == 0)
            w->record = w->at;
        left--;
        if (!pass_record(w, MMS_RECORD + 1))
            return 8;
    }
    return 0;
}

/* Zero bits, and the type's upper bits, which are a value; a plain digital record has none of them and no transport
   bit. */
static inline uint32_t refusal_of_channel(const uint8_t *record) {
    uint32_t front = load32(record);
    if (!(front & bits_of_bytes(0xF0, 0, 0x40 | 0x10 | 0x0E, 0)))
        return 0;
    if (front & bits_of_bytes(0xF0, 0, 0x40, 0))
        return 9;
    int analogue = record[2] & 0x10;
    if (analogue && ((record[6] & 0x70) | record[7] | record[8]))
        return 9;
    return (record[2] & 0x0F) > 1 || (analogue && (record[6] & 0x0F) > 4) ? 10 : 0;
}

/* The first of the records that match. */
static inline void match(struct walk *w, uint32_t wanted, uint32_t here) {
    if (wanted != NOTHING_WANTED && here == wanted && !w->record)
        w->record = w->at;
}

/* Records without descriptors stand at fixed distances: how many are whole is known before the first. */
static inline uint32_t walk_bare_channels(struct walk *w, uint32_t records, uint32_t wanted) {
    uint32_t whole = (uint32_t)room(w) / VCM_RECORD, walked = records < whole ? records : whole;
    for (const uint8_t *behind = w->at + walked * VCM_RECORD; w->at < behind; w->at += VCM_RECORD) {
        uint32_t refusal = refusal_of_channel(w->at);
        if (refusal)
            return refusal;
        match(w, wanted, word(w->at));
    }
    return walked < records ? 8 : 0;
}

static inline uint32_t walk_listed_channels(struct walk *w, uint32_t records, uint32_t wanted) {
    for (; records > 0; records--) {
        if (room(w) < VCM_RECORD + 1)
            return room(w) < VCM_RECORD ? 8 : without_count(refusal_of_channel(w->at));
        uint32_t refusal = refusal_of_channel(w->at);
        if (refusal)
            return refusal;
        match(w, wanted, word(w->at));
        if (!pass_record(w, VCM_RECORD + 1))
            return 8;
    }
    return 0;
}

static inline uint32_t walk_vcm(struct walk *w, const uint8_t *section, uint32_t wanted) {
    if (room(w) < VCM_HEAD)
        return 8;
    if ((section[7] & 0xDF) | (section[8] & 0x7F))
        return 9;
    w->at += VCM_HEAD;
    return section[7] ? walk_listed_channels(w, section[13], wanted) : walk_bare_channels(w, section[13], wanted);
}

static inline uint32_t walk_dcm(struct walk *w, const uint8_t *section, uint32_t wanted) {
    if (room(w) < DCM_HEAD)
        return 8;
    if ((section[7] & 0xF0) | (section[9] & 0x80))
        return 9;
    w->at += DCM_HEAD;
    uint32_t left = MOST_CHANNEL + 1u - word(section + 7), ahead = wanted - word(section + 7);
    uint32_t ranges = section[9], walked = ranges < room(w) ? ranges : (uint32_t)room(w);
    for (const uint8_t *behind = w->at + walked; w->at < behind; w->at++) {
        uint32_t channels = *w->at & 0x7F;
        if (channels - 1 >= left)
            return 10;
        if (wanted != NOTHING_WANTED && ahead < channels)
            w->record = w->at;
        left -= channels;
        ahead -= channels;
    }
    return walked < ranges ? 8 : 0;
}

/* Table 7.3: what stands behind the first byte of a block. */
enum block { RESERVED_MODE, ALONE, MEASURED, EVENLY_MEASURED };
static const uint8_t blocks[256] = {
    [0x00 ... 0x06] = MEASURED, [0x09 ... 0x10] = MEASURED, [0x20 ... 0x27] = MEASURED, [0x30 ... 0x33] = MEASURED,
    [0x3F] = EVENLY_MEASURED,   [0x40 ... 0x9F] = ALONE,    [0xA0 ... 0xFF] = MEASURED,
};

/* Blocks that fill the name exactly, one at least: in an empty name there is no room for any. */
static inline int is_text(const uint8_t *at, const uint8_t *end) {
    do {
        uint32_t block = blocks[*at];
        size_t size = block == ALONE ? 1 : 2 + (size_t)at[1];
        if (block == RESERVED_MODE || (block == EVENLY_MEASURED && size & 1) || size > (size_t)(end - at))
            return 0;
        at += size;
    } while (at < end);
    return 1;
}

/* `size` is that of the record with its name. */
static inline uint32_t refusal_of_name(const uint8_t *record, size_t size) {
    if (record[0] & 0x7F)
        return 9;
    return is_text(record + NTT_RECORD, record + size) ? 0 : 10;
}

/* Flag and number of a record of names, or of the channel whose name is wanted, by one load from the flag on. */
static inline uint32_t wanted_name(const uint8_t *flag) {
    return load32(flag) & bits_of_bytes(0x80, 0xFF, 0xFF, 0);
}

static inline uint32_t walk_ntt(struct walk *w, const uint8_t *section, uint32_t wanted) {
    if (room(w) < NTT_HEAD)
        return 8;
    w->at += NTT_HEAD;
    for (uint32_t records = section[NAMES_HEADER]; records > 0; records--) {
        size_t size = NTT_RECORD + (size_t)w->at[3];
        if (room(w) < size + 1)
            return room(w) < size ? 8 : without_count(refusal_of_name(w->at, size));
        uint32_t refusal = refusal_of_name(w->at, size);
        if (refusal)
            return refusal;
        match(w, wanted, wanted_name(w->at));
        if (!pass_record(w, size + 1))
            return 8;
    }
    return 0;
}

#endif
