/* Stand-in header, as those of tests/c/headers: only what the benchmark uses. */
#ifndef STAND_IN_UNISTD_H
#define STAND_IN_UNISTD_H
#include <stddef.h>
long read(int, void *, size_t);
long write(int, const void *, size_t);
#endif
