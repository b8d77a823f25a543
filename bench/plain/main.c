/* The program: reads standard input in large pieces and writes a text, the line-up where no other is named, by one
   call. */
#include "stream.h"

#include <unistd.h>

#ifndef TEXT
#define TEXT plain_lineup_text
#endif

enum { PIECE = 65536, IN = 0, OUT = 1 };

/* Fills the bytes as far as the input goes; how many there are then, or -1 where it can't be read. */
static long fill(uint8_t *bytes, size_t have, size_t wanted) {
    while (have < wanted) {
        long got = read(IN, bytes + have, PIECE - have);
        if (got < 0)
            return -1;
        if (got == 0)
            break;
        have += (size_t)got;
    }
    return (long)have;
}

static int write_all(const uint8_t *bytes, size_t length) {
    while (length > 0) {
        long put = write(OUT, bytes, length);
        if (put <= 0)
            return 1;
        bytes += put;
        length -= (size_t)put;
    }
    return 0;
}

/* The rest of a section that isn't whole yet goes to the front of the buffer. */
static int take_stream(struct stream *stream, uint8_t *bytes, size_t have, size_t at) {
    for (;;) {
        at += plain_offer_whole(stream, bytes + at, have - at);
        have -= at;
        memmove(bytes, bytes + at, have);
        at = 0;
        long filled = fill(bytes, have, have + 1);
        if (filled < 0)
            return 1;
        if ((size_t)filled == have)
            break;
        have = (size_t)filled;
    }
    plain_offer_rest(stream, bytes, have);
    return 0;
}

int main(void) {
    static uint8_t bytes[PIECE], printed[MOST_TEXT];
    static struct stream stream;
    long have = fill(bytes, 0, 2);
    if (have < 0)
        return 1;
    if (have < 2)
        return write_all(printed, TEXT.print_refused(printed));
    plain_start_stream(&stream, (uint16_t)word(bytes));
    if (take_stream(&stream, bytes, (size_t)have, 2))
        return 1;
    return write_all(printed, TEXT.print(&stream, printed));
}
