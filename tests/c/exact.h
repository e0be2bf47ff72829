/* A double of metres in millimetres, exactly: a fraction of whole numbers of a thousand bits, divided by hand. It shares no code with the
 * library, and no double is added, multiplied or compared. */
#ifndef EXACT_H
#define EXACT_H

#include <stdbool.h>
#include <stdint.h>
#include <string.h>

/* 2^62: farther is told as just as far. */
#define EXACT_FAR ((int64_t)1 << 62)

struct exact {
    /* Neither a NaN nor an infinity; where it is one, the rest is false and 0. */
    bool finite;
    /* The value lies in the middle between two whole numbers of millimetres. */
    bool half;
    /* The nearest whole number, halves to even; at most EXACT_FAR, at least -EXACT_FAR. */
    int64_t millimetres;
};

struct exact exact_of(double metres);

/* A double's bits as a number, and back; a NaN keeps all of its own. */
static inline uint64_t exact_bits(double x)
{
    uint64_t bits;
    memcpy(&bits, &x, sizeof bits);
    return bits;
}

static inline double exact_double(uint64_t bits)
{
    double x;
    memcpy(&x, &bits, sizeof x);
    return x;
}

#endif
