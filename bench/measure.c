/* Does a piece of work by the proved code and by plain C, on an input of bench/inputs.py from standard input:

     measure count proved|plain TURNS WORK    does it so many times; the instructions of one turn are the difference
                                              of two runs
     measure compare WORK                     compares the answers of both, and the stores after them
     measure time WORK                        prints the nanoseconds of a turn of either side, the best of many

   WORK is check, offer, tune CHANNEL, label CHANNEL, lineup or labels. Both sides are in objects of their own, so that
   no call can be taken out of a loop, put together with another or left away. */
#include "label.h"
#include "mofrindi.h"
#include "receiver.h"
#include "section.h"
#include "stream.h"
#include "tuner.h"

#include <stdio.h>
#include <string.h>
#include <time.h>

uint64_t trial_start(uint16_t map, const uint8_t *language, size_t language_length, uint32_t part);
uint64_t trial_offer(const uint8_t *state, size_t state_length, uint8_t *store, size_t store_length,
                     const uint8_t *section, size_t section_length, uint32_t part);
uint64_t trial_tune(const uint8_t *state, size_t state_length, const uint8_t *store, size_t store_length,
                    uint16_t channel, uint32_t part);
uint64_t trial_label(const uint8_t *state, size_t state_length, const uint8_t *store, size_t store_length,
                     uint16_t channel, uint32_t part);
uint64_t trial_shown(const uint8_t *state, size_t state_length, const uint8_t *store, size_t store_length,
                     const uint8_t *fallback, size_t fallback_length, uint16_t channel, uint8_t *out,
                     size_t out_length);
uint64_t trial_lineup(const uint8_t *input, size_t input_length, uint8_t *out, size_t out_length);
uint64_t trial_labels(const uint8_t *input, size_t input_length, uint8_t *out, size_t out_length);

enum { MOST_INPUT = 1 << 22, MOST_SECTIONS = 1 << 17, LINEUP_ROOM = 1 << 17, LABEL_ROOM = 256 };
enum { OFFER_PARTS = 8, ANSWER_PART = 7, TUNE_PARTS = 3, LABEL_PARTS = 4 };
/* Short rounds and many of them: the best one is undisturbed on a busy machine too. Long turns have fewer. */
enum { LEAST_ROUNDS = 21, MOST_ROUNDS = 301, ROUND_NANOSECONDS = 200000, ENOUGH_NANOSECONDS = 1000000000 };
enum { CHANNEL_STEP = 7 };

static uint8_t input[MOST_INPUT], proved_out[MOST_TEXT], plain_out[MOST_TEXT];
static size_t input_length;
static struct {
    const uint8_t *bytes;
    size_t length;
} sections[MOST_SECTIONS];
static size_t section_count;
static uint8_t *state, *store;
static uint16_t channel;
static const uint8_t fallback[] = {0, 3, 'T', 'V', ' '};
static volatile uint64_t answers;       /* a place for answers that nothing reads */

static int fail(const char *what) {
    fprintf(stderr, "measure: %s\n", what);
    return 1;
}

static int differ(const char *work, unsigned long which) {
    fprintf(stderr, "measure: proved code and plain C differ in %s %lu\n", work, which);
    return 1;
}

/* ---- check */

static int prepare_check(void) {
    for (size_t at = 0; at < input_length; section_count++) {
        if (input_length - at < 4 || section_count == MOST_SECTIONS)
            return fail("the input has a cut length or too many sections");
        size_t length = load32(input + at);
        at += 4;
        if (length > input_length - at)
            return fail("the input ends inside a section");
        sections[section_count].bytes = input + at;
        sections[section_count].length = length;
        at += length;
    }
    return 0;
}

static void check_proved(void) {
    uint64_t sum = 0;
    for (size_t i = 0; i < section_count; i++)
        sum += mofrindi_check_section(sections[i].bytes, sections[i].length);
    answers = sum;
}

static void check_plain(void) {
    uint64_t sum = 0;
    for (size_t i = 0; i < section_count; i++)
        sum += plain_check_section(sections[i].bytes, sections[i].length);
    answers = sum;
}

static int compare_check(void) {
    for (size_t i = 0; i < section_count; i++)
        if (mofrindi_check_section(sections[i].bytes, sections[i].length)
            != plain_check_section(sections[i].bytes, sections[i].length))
            return differ("section", i);
    return 0;
}

/* ---- offer */

static int prepare_store(void) {
    if (input_length < STATE + STORE)
        return fail("the input is shorter than a state and a store");
    state = input;
    store = input + STATE;
    sections[0].bytes = store + STORE;
    sections[0].length = input_length - STATE - STORE;
    return 0;
}

static void offer_proved(void) {
    answers = trial_offer(state, STATE, store, STORE, sections[0].bytes, sections[0].length, ANSWER_PART);
}

static void offer_plain(void) {
    answers = plain_offer(state, STATE, store, STORE, sections[0].bytes, sections[0].length, ANSWER_PART);
}

static int compare_offer(void) {
    uint16_t map = (uint16_t)(state[0] | state[1] << 8);
    for (uint32_t part = 0; part < OFFER_PARTS; part++) {
        if (trial_start(map, state + LANGUAGE_AT, LANGUAGE_BYTES, part)
            != plain_start(map, state + LANGUAGE_AT, LANGUAGE_BYTES, part))
            return differ("the start's part", part);
        memcpy(proved_out, store, STORE);
        memcpy(plain_out, store, STORE);
        if (trial_offer(state, STATE, proved_out, STORE, sections[0].bytes, sections[0].length, part)
            != plain_offer(state, STATE, plain_out, STORE, sections[0].bytes, sections[0].length, part))
            return differ("an offer's part", part);
        if (memcmp(proved_out, plain_out, STORE))
            return differ("the store after part", part);
    }
    return 0;
}

/* ---- tune */

static void tune_proved(void) {
    answers = trial_tune(state, STATE, store, STORE, channel, 0);
}

static void tune_plain(void) {
    answers = plain_tune(state, STATE, store, STORE, channel, 0);
}

static int same_tuning(uint32_t number) {
    for (uint32_t part = 0; part < TUNE_PARTS; part++)
        if (trial_tune(state, STATE, store, STORE, (uint16_t)number, part)
            != plain_tune(state, STATE, store, STORE, (uint16_t)number, part))
            return 0;
    return 1;
}

/* The channel that is measured, and many others. */
static int compare_channels(const char *question, int (*same)(uint32_t number)) {
    if (!same(channel))
        return differ(question, channel);
    for (uint32_t number = 0; number <= MOST_CHANNEL + CHANNEL_STEP; number += CHANNEL_STEP)
        if (!same(number))
            return differ(question, number);
    return 0;
}

static int compare_tune(void) {
    return compare_channels("the tuning of channel", same_tuning);
}

/* ---- label */

static void label_proved(void) {
    answers = trial_label(state, STATE, store, STORE, channel, 0);
}

static void label_plain(void) {
    answers = plain_label(state, STATE, store, STORE, channel, 0);
}

/* The room that is lent for a label begins with zeros. */
static uint64_t show(__typeof__(trial_shown) *shown, uint32_t number, uint8_t *out) {
    memset(out, 0, LABEL_ROOM);
    return shown(state, STATE, store, STORE, fallback, sizeof fallback, (uint16_t)number, out, LABEL_ROOM);
}

static int same_label(uint32_t number) {
    for (uint32_t part = 0; part < LABEL_PARTS; part++)
        if (trial_label(state, STATE, store, STORE, (uint16_t)number, part)
            != plain_label(state, STATE, store, STORE, (uint16_t)number, part))
            return 0;
    return show(trial_shown, number, proved_out) == show(plain_shown, number, plain_out)
        && memcmp(proved_out, plain_out, LABEL_ROOM) == 0;
}

static int compare_label(void) {
    return compare_channels("the label of channel", same_label);
}

/* ---- lineup and labels */

static int prepare_text(void) {
    return 0;
}

static void lineup_proved(void) {
    answers = trial_lineup(input, input_length, proved_out, LINEUP_ROOM);
}

static void lineup_plain(void) {
    answers = plain_lineup(input, input_length, plain_out, LINEUP_ROOM);
}

static void labels_proved(void) {
    answers = trial_labels(input, input_length, proved_out, MOST_TEXT);
}

static void labels_plain(void) {
    answers = plain_labels(input, input_length, plain_out, MOST_TEXT);
}

/* By one turn of either side. */
static int compare_text(void (*proved)(void), void (*plain)(void)) {
    proved();
    uint64_t length = answers;
    plain();
    if (length == 0 || length != answers)
        return differ("the length of a text", length);
    return memcmp(proved_out, plain_out, length) ? differ("a text of bytes", length) : 0;
}

static int compare_lineup(void) {
    return compare_text(lineup_proved, lineup_plain);
}

static int compare_labels(void) {
    return compare_text(labels_proved, labels_plain);
}

/* ---- all works */

struct work {
    const char *name;
    int (*prepare)(void);
    void (*proved)(void);
    void (*plain)(void);
    int (*compare)(void);
};

static const struct work works[] = {
    {"check", prepare_check, check_proved, check_plain, compare_check},
    {"offer", prepare_store, offer_proved, offer_plain, compare_offer},
    {"tune", prepare_store, tune_proved, tune_plain, compare_tune},
    {"label", prepare_store, label_proved, label_plain, compare_label},
    {"lineup", prepare_text, lineup_proved, lineup_plain, compare_lineup},
    {"labels", prepare_text, labels_proved, labels_plain, compare_labels},
};

static const struct work *work_named(const char *name) {
    for (size_t i = 0; i < sizeof works / sizeof *works; i++)
        if (strcmp(works[i].name, name) == 0)
            return &works[i];
    return NULL;
}

static int is_number(const char *digits, uint32_t most, uint32_t *n) {
    *n = 0;
    if (!*digits)
        return 0;
    for (; *digits >= '0' && *digits <= '9' && *n <= most; digits++)
        *n = *n * 10 + (uint32_t)(*digits - '0');
    return !*digits && *n <= most;
}

static void do_turns(void (*turn)(void), uint32_t turns) {
    for (; turns > 0; turns--)
        turn();
}

/* ---- time: both sides in turn, so that what else the machine does meets both */

static uint64_t now(void) {
    struct timespec t;
    clock_gettime(CLOCK_MONOTONIC, &t);
    return (uint64_t)t.tv_sec * 1000000000 + (uint64_t)t.tv_nsec;
}

static uint64_t nanoseconds(void (*turn)(void), uint32_t turns) {
    uint64_t start = now();
    do_turns(turn, turns);
    return now() - start;
}

/* How many turns take long enough for the clock. */
static uint32_t turns_for_round(void (*turn)(void)) {
    uint32_t turns = 1;
    while (turns < 1u << 24 && nanoseconds(turn, turns) < ROUND_NANOSECONDS)
        turns *= 2;
    return turns;
}

static int time_both(const struct work *work) {
    uint64_t best_proved = ~0ull, best_plain = ~0ull, start = now();
    uint32_t proved_turns = turns_for_round(work->proved), plain_turns = turns_for_round(work->plain);
    for (int round = 0; round < LEAST_ROUNDS || (round < MOST_ROUNDS && now() - start < ENOUGH_NANOSECONDS); round++) {
        uint64_t proved = nanoseconds(work->proved, proved_turns), plain = nanoseconds(work->plain, plain_turns);
        best_proved = proved < best_proved ? proved : best_proved;
        best_plain = plain < best_plain ? plain : best_plain;
    }
    printf("%.1f %.1f\n", (double)best_proved / proved_turns, (double)best_plain / plain_turns);
    return fflush(stdout) != 0;
}

/* ---- the arguments */

static int count_turns(const struct work *work, const char *side, uint32_t turns) {
    if (strcmp(side, "proved") == 0)
        do_turns(work->proved, turns);
    else if (strcmp(side, "plain") == 0)
        do_turns(work->plain, turns);
    else
        return fail("a side is proved or plain");
    return 0;
}

int main(int count, char **words) {
    uint32_t turns = 0, number = 0;
    int counts = count > 4 && strcmp(words[1], "count") == 0 && is_number(words[3], 1 << 20, &turns);
    int first = counts ? 4 : 2;
    const struct work *work = first < count ? work_named(words[first]) : NULL;
    if (!work || (count > first + 1 && !is_number(words[first + 1], 65535, &number)) || count > first + 2)
        return fail("give count proved|plain TURNS, compare or time, and check, offer, tune CHANNEL, label CHANNEL, "
                    "lineup or labels");
    channel = (uint16_t)number;
    input_length = fread(input, 1, MOST_INPUT, stdin);
    if (work->prepare())
        return 1;
    if (counts)
        return count_turns(work, words[2], turns);
    if (strcmp(words[1], "compare") == 0)
        return work->compare();
    return strcmp(words[1], "time") == 0 ? time_both(work) : fail("give count, compare or time");
}
