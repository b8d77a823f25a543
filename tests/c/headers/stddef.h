/* Stand-in headers: the toolchain's clang has none of its own. Only what the C tests use. */
#ifndef STAND_IN_STDDEF_H
#define STAND_IN_STDDEF_H
typedef __SIZE_TYPE__ size_t;
#define NULL ((void *)0)
#endif
