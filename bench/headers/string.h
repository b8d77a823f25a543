/* Stand-in header: what tests/c/headers has, and memmove. */
#ifndef BENCH_STRING_H
#define BENCH_STRING_H
#include_next <string.h>
void *memmove(void *, const void *, size_t);
#endif
