/* Asks the tuner for the channels of many trials, and for their labels, in one run (the archive of crates/trials).
   Standard input, numbers lowest byte first: for each trial a state of 45 bytes, the length of the store (4 bytes) and
   a seed for its bytes (1), the number of pieces (2) and for each piece its place in the store (4), its length (2) and
   its bytes, the number of channels to tune (4), and each channel (2), the length of the fallback (2) and its bytes,
   the number of channels whose labels are asked (4), and each channel (2). Standard output: for each channel to tune
   20 bytes, the three parts of the answer (8, 8 and 4 bytes); then for each label its kind and refusal (2), where the
   name begins (4), its size (4), how many bytes are shown (4), and these bytes. */
#include "../trials.h"
#include "../guard.h"

#include <string.h>

uint8_t trial_check(const uint8_t *state, size_t state_length, const uint8_t *store, size_t store_length);
uint64_t trial_tune(const uint8_t *state, size_t state_length, const uint8_t *store, size_t store_length, uint16_t channel,
                    uint32_t part);

uint64_t trial_label(const uint8_t *state, size_t state_length, const uint8_t *store, size_t store_length,
                     uint16_t channel, uint32_t part);
uint64_t trial_shown(const uint8_t *state, size_t state_length, const uint8_t *store, size_t store_length,
                     const uint8_t *fallback, size_t fallback_length, uint16_t channel, uint8_t *out,
                     size_t out_length);

enum { MOST_FALLBACK = 65535, MOST_SHOWN = MOST_FALLBACK, BEHIND = 16 };

static uint8_t state_before[STATE], store_before[MOST_STORE];
static uint8_t fallback[MOST_FALLBACK], fallback_before[MOST_FALLBACK], shown[MOST_SHOWN + BEHIND];
static size_t fallback_length;

static int ends_early(void) {
    return fail("the input ends inside a trial");
}

static int read_pieces(size_t store_length) {
    uint8_t head[6];
    if (fread(head, 1, 2, stdin) != 2)
        return ends_early();
    for (uint32_t left = number(head, 2); left > 0; left--) {
        if (fread(head, 1, sizeof head, stdin) != sizeof head)
            return ends_early();
        size_t at = number(head, 4), length = number(head + 4, 2);
        if (at > store_length || length > store_length - at)
            return fail("a piece is not inside its store");
        if (fread(store + at, 1, length, stdin) != length)
            return ends_early();
    }
    return 0;
}

static int is_of_checks(uint64_t refused) {
    return refused == 1 << 8 || refused == 2 << 8 || refused == 15 << 8 || refused == 16 << 8;
}

/* The three parts of an answer. What the checks refuse, and nothing else by these numbers, is refused for every channel up to
   4095. */
static int ask(const uint8_t *state, size_t store_length, uint16_t channel) {
    uint64_t parts[3];
    for (uint32_t part = 0; part < 3; part++)
        parts[part] = trial_tune(state, STATE, store, store_length, channel, part);
    uint8_t refusal = trial_check(state, STATE, store, store_length);
    if (channel <= 4095 && (refusal != 0 ? parts[0] != (uint64_t)refusal << 8 : is_of_checks(parts[0])))
        return fail("tuning and its checks do not refuse the same");
    write_number(parts[0], 8);
    write_number(parts[1], 8);
    write_number(parts[2], 4);
    return 0;
}

static size_t shown_in(size_t room, const uint8_t *state, size_t store_length, uint16_t channel) {
    return trial_shown(state, STATE, store, store_length, fallback, fallback_length, channel, shown, room);
}

/* The label, and the bytes behind it stay; then one byte of room less than it takes, and nothing is put. */
static int show(const uint8_t *state, size_t store_length, uint16_t channel) {
    memset(shown, GUARD, sizeof shown);
    size_t size = shown_in(MOST_SHOWN, state, store_length, channel);
    if (size > MOST_SHOWN || !is_as_it_was(shown, size, sizeof shown))
        return fail("a byte behind the label changed");
    write_number(size, 4);
    if (fwrite(shown, 1, size, stdout) != size)
        return fail("the label can't be written");
    memset(shown, GUARD, size);
    if (size > 0 && (shown_in(size - 1, state, store_length, channel) != size || !is_as_it_was(shown, 0, sizeof shown)))
        return fail("a label was put where there is no room for it");
    return 0;
}

static int ask_label(const uint8_t *state, size_t store_length, uint16_t channel) {
    static const int sizes[3] = {2, 4, 4};
    for (uint32_t part = 0; part < 3; part++) {
        uint64_t value = trial_label(state, STATE, store, store_length, channel, part);
        if (value >> 8 * sizes[part] != 0)
            return fail("a part of a label's answer is too large");
        write_number(value, sizes[part]);
    }
    return show(state, store_length, channel);
}

static int read_fallback(void) {
    uint8_t two[2];
    if (fread(two, 1, 2, stdin) != 2)
        return ends_early();
    fallback_length = number(two, 2);
    if (fread(fallback, 1, fallback_length, stdin) != fallback_length)
        return ends_early();
    memcpy(fallback_before, fallback, fallback_length);
    return 0;
}

/* A question for each channel of a list. */
static int ask_all(const uint8_t *state, size_t store_length, int (*question)(const uint8_t *, size_t, uint16_t)) {
    uint8_t four[4];
    if (fread(four, 1, 4, stdin) != 4)
        return ends_early();
    for (uint32_t left = number(four, 4); left > 0; left--) {
        if (fread(four, 1, 2, stdin) != 2)
            return ends_early();
        if (question(state, store_length, (uint16_t)number(four, 2)))
            return 1;
    }
    return 0;
}

static int trial(uint8_t *state) {
    uint8_t head[5];
    if (fread(head, 1, sizeof head, stdin) != sizeof head)
        return ends_early();
    size_t store_length = number(head, 4);
    if (store_length > MOST_STORE)
        return fail("a store is longer than 65,536 bytes");
    fill_store(store_length, head[4]);
    if (read_pieces(store_length))
        return 1;
    memcpy(state_before, state, STATE);
    memcpy(store_before, store, store_length);
    if (ask_all(state, store_length, ask) || read_fallback() || ask_all(state, store_length, ask_label))
        return 1;
    if (memcmp(state_before, state, STATE) || memcmp(store_before, store, store_length) ||
        memcmp(fallback_before, fallback, fallback_length))
        return fail("a question changed a state, a store or a fallback");
    return 0;
}

int main(void) {
    return all_trials(trial);
}
