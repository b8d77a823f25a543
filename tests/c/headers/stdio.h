#ifndef STAND_IN_STDIO_H
#define STAND_IN_STDIO_H
#include <stddef.h>
typedef struct stand_in_file FILE;
extern FILE *stdin, *stdout, *stderr;
int printf(const char *, ...) __attribute__((format(printf, 1, 2)));
int fprintf(FILE *, const char *, ...) __attribute__((format(printf, 2, 3)));
size_t fread(void *, size_t, size_t, FILE *);
size_t fwrite(const void *, size_t, size_t, FILE *);
int putchar(int);
int fflush(FILE *);
#endif
