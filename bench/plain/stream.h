/* A stream of sections, and the texts that are printed of it: the line-up and the labels. */
#ifndef PLAIN_STREAM_H
#define PLAIN_STREAM_H

#include "receiver.h"

struct stream {
    struct receiver receiver;
    uint64_t sections, refused;
    uint8_t store[STORE];
};

/* For names in English. */
void plain_start_stream(struct stream *stream, uint16_t map);

/* Offers all whole sections at the front of the bytes; how many bytes they take. */
size_t plain_offer_whole(struct stream *stream, const uint8_t *bytes, size_t length);

/* What is left at the end of the input, if anything, is offered as it is. */
void plain_offer_rest(struct stream *stream, const uint8_t *bytes, size_t length);

/* Each writes a text into `most` bytes, which are at most MOST_TEXT, and gives its length; the second one where the
   input has no map number. */
enum { MOST_TEXT = 1 << 18 };
struct text {
    size_t (*print)(const struct stream *stream, uint8_t *out);
    size_t (*print_refused)(uint8_t *out);
    size_t most;
};
extern const struct text plain_lineup_text, plain_labels_text;

/* The same interface as trial_lineup and trial_labels: the length, or 0 where there is no room, and then nothing is
   written. */
uint64_t plain_lineup(const uint8_t *input, size_t input_length, uint8_t *out, size_t out_length);
uint64_t plain_labels(const uint8_t *input, size_t input_length, uint8_t *out, size_t out_length);

#endif
