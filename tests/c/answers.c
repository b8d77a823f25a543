/* Asks the C question of many sections in one run. Standard input: for each section its length, four bytes, lowest first, and
   its bytes. Standard output: the answers, one byte each. */
#include <stdio.h>

#include "mofrindi.h"

static uint8_t section[1 << 20];

int main(void) {
    uint8_t four[4];
    size_t got;
    while ((got = fread(four, 1, 4, stdin)) == 4) {
        size_t length = four[0] | (size_t)four[1] << 8 | (size_t)four[2] << 16 | (size_t)four[3] << 24;
        if (length > sizeof section || fread(section, 1, length, stdin) != length) {
            fprintf(stderr, "answers: a section is longer than 1,048,576 bytes or cut short\n");
            return 1;
        }
        uint32_t answer = mofrindi_check_section(section, length);
        if (answer > 255) {
            fprintf(stderr, "answers: an answer is above 255\n");
            return 1;
        }
        putchar((int)answer);
    }
    if (got != 0) {
        fprintf(stderr, "answers: the input ends inside a length\n");
        return 1;
    }
    return fflush(stdout) != 0;
}
