/* Offers the sections of many trials to the receiver, in one run (the archive of crates/trials). Standard input, numbers
   lowest byte first: for each trial a state of 45 bytes, the length of the store (4 bytes) and a seed for its bytes (1), the
   number of sections (2), and each section with its length (2) in front. Standard output: for each section the kind of the
   answer, its number and the state after it, and behind a trial's last section the CRC-32 of the whole store. */
#include "../trials.h"

#include <string.h>

uint64_t trial_start(uint16_t map, const uint8_t *language, size_t language_length, uint32_t part);
uint64_t trial_offer(const uint8_t *state, size_t state_length, uint8_t *store, size_t store_length, const uint8_t *section,
                     size_t section_length, uint32_t part);

enum { MAP, CDS, NTT = CDS + TABLES - 1, LANGUAGE, ANSWER };

static uint8_t copied_store[MOST_STORE], section[65535];
static uint32_t crc_table[256];

static void make_crc_table(void) {
    for (uint32_t i = 0; i < 256; i++) {
        uint32_t crc = i;
        for (int bit = 0; bit < 8; bit++)
            crc = crc >> 1 ^ (crc & 1 ? 0xEDB88320 : 0);
        crc_table[i] = crc;
    }
}

static uint32_t crc_of_store(size_t length) {
    uint32_t crc = 0xFFFFFFFF;
    for (size_t i = 0; i < length; i++)
        crc = crc >> 8 ^ crc_table[(crc ^ store[i]) & 255];
    return ~crc;
}

/* "Fresh: nothing live, nothing gathered, and the half set to 1", which is the last of a table's eight bytes. The
   language goes by the map number; of a short one the bytes that are missing are zero. No part is behind it. */
static int starts_fresh(void) {
    for (uint32_t map = 0; map < 65536; map++) {
        uint8_t language[LANGUAGE_BYTES] = {(uint8_t)map, (uint8_t)(map >> 8), (uint8_t)(map * 7 + 1)};
        size_t length = map % 5 < LANGUAGE_BYTES ? map % 5 : LANGUAGE_BYTES;
        if (trial_start((uint16_t)map, language, length, MAP) != map ||
            trial_start((uint16_t)map, language, length, LANGUAGE) != number(language, (int)length) ||
            trial_start((uint16_t)map, language, length, ANSWER) != 0)
            return 0;
        for (uint32_t part = CDS; part <= NTT; part++)
            if (trial_start((uint16_t)map, language, length, part) != (uint64_t)1 << 56)
                return 0;
    }
    return 1;
}

static void put_number(uint8_t *bytes, uint64_t n, int count) {
    for (int i = 0; i < count; i++)
        bytes[i] = (uint8_t)(n >> 8 * i);
}

/* One call gives one part. The state's parts are asked for on copies of the store, the answer on the store itself. */
static int offer(uint8_t *state, size_t store_length, size_t length) {
    uint64_t parts[ANSWER];
    for (uint32_t part = MAP; part < ANSWER; part++) {
        memcpy(copied_store, store, store_length);
        parts[part] = trial_offer(state, STATE, copied_store, store_length, section, length, part);
    }
    uint64_t answer = trial_offer(state, STATE, store, store_length, section, length, ANSWER);
    if (parts[MAP] > 65535 || answer > 65535 || parts[LANGUAGE] > 0xFFFFFF)
        return fail("a map number or an answer is above two bytes, or a language above three");
    put_number(state, parts[MAP], 2);
    for (int table = 0; table < TABLES; table++)
        put_number(state + 2 + HOLDING * table, parts[CDS + table], HOLDING);
    put_number(state + 2 + HOLDING * TABLES, parts[LANGUAGE], LANGUAGE_BYTES);
    write_number(answer, 2);
    for (int i = 0; i < STATE; i++)
        putchar(state[i]);
    return 0;
}

static int trial(uint8_t *state) {
    uint8_t head[7], two[2];
    if (fread(head, 1, sizeof head, stdin) != sizeof head)
        return fail("the input ends inside a trial");
    size_t store_length = number(head, 4);
    if (store_length > MOST_STORE)
        return fail("a store is longer than 65,536 bytes");
    fill_store(store_length, head[4]);
    for (uint32_t left = number(head + 5, 2); left > 0; left--) {
        if (fread(two, 1, 2, stdin) != 2)
            return fail("the input ends inside a trial");
        size_t length = number(two, 2);
        if (fread(section, 1, length, stdin) != length)
            return fail("the input ends inside a section");
        if (offer(state, store_length, length))
            return 1;
    }
    write_number(crc_of_store(store_length), 4);
    return 0;
}

int main(void) {
    make_crc_table();
    if (!starts_fresh())
        return fail("a state at the start is not fresh");
    return all_trials(trial);
}
