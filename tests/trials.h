/* What the programs of tests/receiver and tests/tuner share: a store with the bytes that a trial starts with, and the
   bytes of a state: map number (2), five tables of eight each (CDS, MMS, VCM, DCM, NTT), and the language (3). */
#include "numbers.h"

enum { TABLES = 5, HOLDING = 8, LANGUAGE_BYTES = 3, STATE = 2 + TABLES * HOLDING + LANGUAGE_BYTES };
enum { MOST_STORE = 65536 };

static uint8_t store[MOST_STORE];

static void fill_store(size_t length, uint8_t seed) {
    for (size_t i = 0; i < length; i++)
        store[i] = (uint8_t)(seed + 31 * i + 17 * (i / 256));
}

/* Asks `trial` for every state on standard input. */
static int all_trials(int (*trial)(uint8_t *state)) {
    uint8_t state[STATE];
    size_t got;
    while ((got = fread(state, 1, STATE, stdin)) == STATE)
        if (trial(state))
            return 1;
    if (got != 0)
        return fail("the input ends inside a state");
    return fflush(stdout) != 0;
}
