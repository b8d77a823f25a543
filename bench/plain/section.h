/* Reading one section, refusals 3 to 11. */
#ifndef PLAIN_SECTION_H
#define PLAIN_SECTION_H

#include <stddef.h>
#include <stdint.h>

enum table { CDS, MMS, VCM, DCM, NTT, TABLES };

enum { HEADER = 7, NAMES_HEADER = 8, VCM_HEAD = 7, DCM_HEAD = 3, NTT_HEAD = 1, CRC_BYTES = 4, MOST_LENGTH = 1024 };
/* Without the descriptor count; of a name's record what stands in front of the name. */
enum { CDS_RECORD = 5, MMS_RECORD = 6, VCM_RECORD = 9, NTT_RECORD = 4 };
enum { MOST_CHANNEL = 4095, MOST_INDEX = 255 };

/* What the receiver must know of a section that reads right, but for whose it is. */
struct section_head {
    uint32_t table, version, number, last;
};

/* 0, or the number of a refusal; head is set where the answer is 0. */
uint32_t plain_read_section(const uint8_t *section, size_t length, struct section_head *head);
uint32_t plain_check_section(const uint8_t *section, size_t length);

static inline size_t stated_length(const uint8_t *section) {
    return 3 + ((size_t)(section[1] & 0x0F) << 8 | section[2]);
}

#endif
