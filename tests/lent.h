/* What the tests over lent slices share: the number that stands for none, the length of an array, floats as patterns. Declares of the C library what the tests
 * call, for its headers are not used (tests/archive.sh says why). */
#ifndef LENT_H
#define LENT_H

#include <stddef.h>
#include <stdint.h>

#include "voronoi.h"

int printf(const char *format, ...);
long clock(void);

#define E VORONOI_EMPTY
#define LENGTH(a) (sizeof(a) / sizeof(a)[0])

static inline uint64_t bits(double x)
{
    uint64_t b;
    __builtin_memcpy(&b, &x, sizeof b);
    return b;
}

static inline double value(uint64_t b)
{
    double x;
    __builtin_memcpy(&x, &b, sizeof x);
    return x;
}

#endif
