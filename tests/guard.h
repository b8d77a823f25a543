/* What the test programs share that lend room for bytes: what stands there before, and whether it still does. */
#include <stddef.h>
#include <stdint.h>

enum { GUARD = 0xA5 };

static int is_as_it_was(const uint8_t *bytes, size_t from, size_t to) {
    while (from < to && bytes[from] == GUARD)
        from++;
    return from == to;
}
