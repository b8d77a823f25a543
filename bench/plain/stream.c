#include "stream.h"

void plain_start_stream(struct stream *stream, uint16_t map) {
    plain_start_receiver(&stream->receiver, map, bits_of_bytes('e', 'n', 'g', 0));
    stream->sections = 0;
    stream->refused = 0;
}

static inline void offer(struct stream *stream, const uint8_t *section, size_t length) {
    struct answer answer = plain_offer_section(&stream->receiver, stream->store, section, length);
    stream->sections++;
    stream->refused += answer.kind == REFUSED;
}

size_t plain_offer_whole(struct stream *stream, const uint8_t *bytes, size_t length) {
    size_t at = 0;
    while (length - at >= 3) {
        size_t section = stated_length(bytes + at);
        if (section > length - at)
            break;
        offer(stream, bytes + at, section);
        at += section;
    }
    return at;
}

void plain_offer_rest(struct stream *stream, const uint8_t *bytes, size_t length) {
    if (length > 0)
        offer(stream, bytes, length);
}

static size_t print_input(const struct text *text, const uint8_t *input, size_t length, uint8_t *out) {
    static struct stream stream;
    if (length < 2)
        return text->print_refused(out);
    plain_start_stream(&stream, (uint16_t)word(input));
    size_t taken = 2 + plain_offer_whole(&stream, input + 2, length - 2);
    plain_offer_rest(&stream, input + taken, length - taken);
    return text->print(&stream, out);
}

/* Where any such text has room it is written at once, else only when its length is known. */
static uint64_t text_of(const struct text *text, const uint8_t *input, size_t input_length, uint8_t *out,
                        size_t out_length) {
    static uint8_t printed[MOST_TEXT];
    if (out_length >= text->most)
        return print_input(text, input, input_length, out);
    size_t length = print_input(text, input, input_length, printed);
    if (length > out_length)
        return 0;
    memcpy(out, printed, length);
    return length;
}

uint64_t plain_lineup(const uint8_t *input, size_t input_length, uint8_t *out, size_t out_length) {
    return text_of(&plain_lineup_text, input, input_length, out, out_length);
}

uint64_t plain_labels(const uint8_t *input, size_t input_length, uint8_t *out, size_t out_length) {
    return text_of(&plain_labels_text, input, input_length, out, out_length);
}
