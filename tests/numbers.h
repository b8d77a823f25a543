/* What the test programs share: numbers lowest byte first, and one clear line where the input is wrong. */
#include <stdint.h>
#include <stdio.h>

static int fail(const char *what) {
    fprintf(stderr, "test program: %s\n", what);
    return 1;
}

static uint32_t number(const uint8_t *bytes, int count) {
    uint32_t n = 0;
    for (int i = count; i-- > 0;)
        n = n << 8 | bytes[i];
    return n;
}

static void write_number(uint64_t n, int count) {
    for (int i = 0; i < count; i++)
        putchar((int)(n >> 8 * i & 255));
}
