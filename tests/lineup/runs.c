/* Prints the line-ups and labels of many inputs, in one run (the archive of crates/runs). Standard input: for each run
   a byte, 0 for the line-up and 1 for the labels, the length of its input (4 bytes, lowest first) and the input.
   Standard output: for each run the length of its text, in the same form, and the text. */
#include "../numbers.h"
#include "../guard.h"

#include <string.h>

enum { MOST_INPUT = 1 << 20, MOST_OUTPUT = 1 << 21, BEHIND = 64 };

uint64_t trial_lineup(const uint8_t *input, size_t input_length, uint8_t *out, size_t out_length);
uint64_t trial_labels(const uint8_t *input, size_t input_length, uint8_t *out, size_t out_length);

typedef uint64_t (*text)(const uint8_t *input, size_t input_length, uint8_t *out, size_t out_length);

static uint8_t input[MOST_INPUT], out[MOST_OUTPUT];

/* One byte of room less than the text takes, and nothing is written; then the text, and the bytes behind it stay. */
static int one_run(text ask, size_t length) {
    size_t size = ask(input, length, out, MOST_OUTPUT - BEHIND);
    if (size == 0)
        return fail("there is no text");
    memset(out, GUARD, size + BEHIND);
    if (ask(input, length, out, size - 1) != 0 || !is_as_it_was(out, 0, size + BEHIND))
        return fail("a text was written where there is no room for it");
    if (ask(input, length, out, size) != size || !is_as_it_was(out, size, size + BEHIND))
        return fail("a byte behind the text changed");
    write_number(size, 4);
    return fwrite(out, 1, size, stdout) == size ? 0 : fail("the text can't be written");
}

int main(void) {
    static const text texts[2] = {trial_lineup, trial_labels};
    uint8_t head[5];
    size_t got;
    while ((got = fread(head, 1, sizeof head, stdin)) == sizeof head) {
        size_t length = number(head + 1, 4);
        if (head[0] > 1)
            return fail("a run asks for another text");
        if (length > MOST_INPUT)
            return fail("an input is longer than 1,048,576 bytes");
        if (fread(input, 1, length, stdin) != length)
            return fail("the input ends inside a run");
        if (one_run(texts[head[0]], length))
            return 1;
    }
    if (got != 0)
        return fail("the input ends inside a length");
    return fflush(stdout) != 0;
}
