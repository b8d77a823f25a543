/* The C question as the box firmware asks it: the examples of document 01, each refusal, short and long sections. */
#include <stdio.h>
#include <string.h>

#include "mofrindi.h"

static int asked, wrong;

static void expect(const char *what, const uint8_t *section, size_t length, uint32_t answer) {
    uint8_t before[1100];
    if (length) memcpy(before, section, length);
    uint32_t got = mofrindi_check_section(section, length);
    asked++;
    if (got != answer) {
        wrong++;
        fprintf(stderr, "check_test: %s: answered %u, not %u\n", what, (unsigned)got, (unsigned)answer);
    }
    if (length && memcmp(before, section, length)) {
        wrong++;
        fprintf(stderr, "check_test: %s: a byte of the section has changed\n", what);
    }
}

/* ISO/IEC 13818-1 Annex A, bit by bit. */
static uint32_t crc(const uint8_t *s, size_t n) {
    uint32_t r = 0xFFFFFFFF;
    for (size_t i = 0; i < n; i++)
        for (int bit = 7; bit >= 0; bit--) {
            uint32_t top = r >> 31 ^ (s[i] >> bit & 1u);
            r <<= 1;
            if (top) r ^= 0x04C11DB7;
        }
    return r;
}

/* Puts the section length and the CRC right; n counts the CRC's four bytes, which are written here. */
static void seal(uint8_t *s, size_t n) {
    s[1] = (uint8_t)((s[1] & 0xF0) | ((n - 3) >> 8 & 0x0F));
    s[2] = (uint8_t)(n - 3);
    uint32_t c = crc(s, n - 4);
    for (int i = 0; i < 4; i++) s[n - 4 + (size_t)i] = (uint8_t)(c >> (24 - 8 * i));
}

static int digit(char c) { return c <= '9' ? c - '0' : c - 'A' + 10; }

static size_t bytes(const char *hex, uint8_t *out) {
    size_t n = 0;
    for (; *hex; hex++)
        if (*hex != ' ') {
            out[n++] = (uint8_t)(digit(hex[0]) * 16 + digit(hex[1]));
            hex++;
        }
    return n;
}

/* A section in hex without its CRC; its length field is put right. */
struct example {
    const char *what, *hex;
    uint32_t answer;
};

#define CDS(first, records) "C2 30 00 00 " first " 01 01 " records " 00 93 03 E5 00 01"
#define MMS(record) "C2 30 00 00 01 01 02 " record " 00 93 03 E5 00 01"
#define VCM(record) "C4 30 00 00 00 00 00 00 00 00 00 00 00 01 " record " 93 03 E5 00 01"
#define DCM(first, length, ranges) "C4 30 00 00 01 00 00 " first " " length " " ranges " 93 03 E5 00 01"
#define NTT(language, subtype, record) "C3 30 00 00 " language " " subtype " 01 " record " 93 03 E5 00 01"
#define NAME "00 12 34 03 00 01 41 00"
#define CLOSING(list) "C2 30 00 00 01 00 01 " list

static const struct example examples[] = {
    {"C1", CDS("01", "02 80 30 81 C8"), 0},
    {"C2", CDS("01", "01 00 00 15 18"), 0},
    {"C3", CDS("01", "01 00 00 15 17"), 0},
    {"C4", CDS("01", "01 00 00 9F 50"), 0},
    {"C4, last byte 51", CDS("01", "01 00 00 9F 51"), 0},
    {"C5, carriers 0", CDS("01", "00 80 30 81 C8"), 10},
    {"C5, zero bit", CDS("01", "02 C0 30 81 C8"), 9},
    {"C6 at first index 1", CDS("01", "FF BF FF FF FF"), 0},
    {"C6 at first index 2", CDS("02", "FF BF FF FF FF"), 10},
    {"C7", DCM("00 02", "03", "83 05 81"), 0},
    {"C8", DCM("0F FF", "01", "81"), 0},
    {"C8, range past 4095", DCM("0F FF", "01", "82"), 10},
    {"C9", VCM("00 03 00 12 34 02 00 03 01"), 0},
    {"C10", VCM("00 08 10 12 35 02 80 00 00"), 0},
    {"C11", CLOSING("93 03 E5 00 01"), 0},
    {"C11, longer body", CLOSING("93 05 E5 00 01 AA BB"), 0},
    {"C11, reserved bits 0", CLOSING("93 03 05 00 01"), 0},
    {"C11, number above last", CLOSING("93 03 E5 02 01"), 11},
    {"C12", MMS("2F 08 00 4D 29 AD"), 0},
    {"another table number", "C5 30 00 00 01 00 01 93 03 E5 00 01", 4},
    {"names", NTT("65 6E 67", "06", NAME), 0},
    {"names of another language", NTT("66 72 61", "06", NAME), 0},
    {"another subtype of names", NTT("65 6E 67", "05", NAME), 7},
    {"a zero bit of a name's flag", NTT("65 6E 67", "06", "01 12 34 03 00 01 41 00"), 9},
    {"an empty name", NTT("65 6E 67", "06", "00 12 34 00 00"), 10},
    {"a reserved mode", NTT("65 6E 67", "06", "00 12 34 03 07 01 41 00"), 10},
    {"16-bit characters with an odd length", NTT("65 6E 67", "06", "00 12 34 03 3F 01 41 00"), 10},
    {"another protocol version", "C2 30 00 01 01 00 01 93 03 E5 00 01", 6},
    {"another subtype", "C2 30 00 00 01 00 03 93 03 E5 00 01", 7},
    {"another medium", "C2 30 00 00 01 00 11 93 03 E5 00 01", 7},
    {"a zero bit of byte 1", "C2 70 00 00 01 00 01 93 03 E5 00 01", 9},
    {"first index 0", "C2 30 00 00 00 00 01 93 03 E5 00 01", 10},
    {"a record runs into the CRC", "C2 30 00 00 01 01 01 02 80 30 81", 8},
    {"a descriptor runs into the CRC", CLOSING("93 03 E5 00 01 40 01"), 8},
    {"no revision descriptor", CLOSING("40 00"), 11},
    {"two revision descriptors", CLOSING("93 03 E5 00 01 93 03 E5 00 01"), 11},
    {"unknown descriptors around it", CLOSING("40 02 AA BB 93 03 E5 00 01 FF 00"), 0},
};

static void ask_examples(void) {
    for (size_t i = 0; i < sizeof examples / sizeof examples[0]; i++) {
        const struct example *e = &examples[i];
        uint8_t s[1100];
        size_t n = bytes(e->hex, s) + 4;
        seal(s, n);
        expect(e->what, s, n, e->answer);
        s[n - 1] ^= 1; /* 4 stands before 5 */
        expect(e->what, s, n, e->answer == 4 ? 4 : 5);
        expect(e->what, s, n - 1, 3);
    }
}

/* A CDS section of no records, n bytes in all, its length field and CRC right, its closing list of zero bytes: up to 10 bytes
   its header runs into the CRC, then the list has whole descriptors 00 00 and no revision, or a byte too many. */
static void ask_short_lengths(void) {
    static const uint32_t answers[21] = {3, 3, 3, 3, 3, 3, 3, 3, 8, 8, 8, 11, 8, 11, 8, 11, 8, 11, 8, 11, 8};
    expect("no bytes, null pointer", NULL, 0, 3);
    for (size_t n = 0; n <= 20; n++) {
        uint8_t s[24] = {0xC2, 0x30, 0, 0, 1, 0, 1};
        if (n >= 8) seal(s, n);
        expect("a short section", s, n, answers[n]);
    }
}

/* The same, closed by a revision descriptor and filled with unknown ones. */
static void ask_long_lengths(void) {
    static const uint32_t answers[4] = {0, 0, 3, 3};
    for (size_t n = 1023; n <= 1026; n++) {
        uint8_t s[1030] = {0xC2, 0x30, 0, 0, 1, 0, 1, 0x93, 3, 0xE5, 0, 1};
        size_t at = 12;
        while (at < n - 4) {
            size_t room = n - 4 - at - 2;
            size_t body = room < 200 ? room : 200;
            if (room - body == 1) body--; /* a descriptor has two bytes at least */
            s[at] = 0x40;
            s[at + 1] = (uint8_t)body;
            at += 2 + body;
        }
        seal(s, n);
        expect("a long section", s, n, answers[n - 1023]);
    }
}

int main(void) {
    ask_examples();
    ask_short_lengths();
    ask_long_lengths();
    printf("check_test: %d questions, %d wrong\n", asked, wrong);
    return wrong != 0;
}
