/* What exact.h promises. A finite double is m 2^e with a whole m below 2^53 and e from -1,074 to 971; in millimetres it is the fraction
 * 1,000 m 2^e / 1 or 1,000 m / 2^-e. */
#include "exact.h"

#include <stddef.h>

/* 1,184 bits are enough: 1,000 m 2^e is below 2^1,034, the divisor is at most 2^(1,074 + 62), and a word is spare. */
#define WORDS 37
#define WORD_BITS 32

#define MOST_BITS 62
#define MILLIMETRES_IN_METRE 1000

/* A double's bits: 52 of a fraction, 11 of the exponent's field, the sign. */
#define FRACTION_BITS 52
#define HIGHEST_FIELD 0x7FF
#define SMALLEST_EXPONENT (-1074)

/* The lowest 32 bits first. From `words` on all are 0. */
struct whole {
    size_t words;
    uint32_t word[WORDS];
};

static struct whole whole_of(uint64_t n)
{
    struct whole w = {2, {(uint32_t)n, (uint32_t)(n >> WORD_BITS)}};
    return w;
}

static void multiply(struct whole *n, uint32_t factor)
{
    uint64_t carry = 0;
    for (size_t i = 0; i < n->words; i++) {
        carry += (uint64_t)n->word[i] * factor;
        n->word[i] = (uint32_t)carry;
        carry >>= WORD_BITS;
    }
    if (carry > 0)
        n->word[n->words++] = (uint32_t)carry;
}

/* By 2^power. */
static void raise(struct whole *n, size_t power)
{
    size_t zeros = power / WORD_BITS;
    memmove(n->word + zeros, n->word, n->words * sizeof n->word[0]);
    memset(n->word, 0, zeros * sizeof n->word[0]);
    n->words += zeros;
    multiply(n, (uint32_t)1 << power % WORD_BITS);
}

static void halve(struct whole *n)
{
    for (size_t i = 0; i < n->words; i++)
        n->word[i] = n->word[i] >> 1 | n->word[i + 1] << (WORD_BITS - 1);
}

/* Below 0, 0 or above 0, as a is below, equal to or above b. */
static int compare(const struct whole *a, const struct whole *b)
{
    for (size_t i = a->words > b->words ? a->words : b->words; i > 0; i--)
        if (a->word[i - 1] != b->word[i - 1])
            return a->word[i - 1] < b->word[i - 1] ? -1 : 1;
    return 0;
}

/* b is not above a. */
static void subtract(struct whole *a, const struct whole *b)
{
    uint32_t borrow = 0;
    for (size_t i = 0; i < a->words; i++) {
        uint64_t less = (uint64_t)b->word[i] + borrow;
        borrow = a->word[i] < less;
        a->word[i] = (uint32_t)(a->word[i] - less);
    }
}

/* How many bits a number has; 0 has none. */
static size_t bits_of(const struct whole *n)
{
    size_t words = n->words, bits = 0;
    while (words > 1 && n->word[words - 1] == 0)
        words--;
    for (uint32_t highest = n->word[words - 1]; highest > 0; highest /= 2)
        bits++;
    return (words - 1) * WORD_BITS + bits;
}

/* How many bits the quotient has at most, or MOST_BITS. */
static size_t quotient_bits(const struct whole *n, const struct whole *divisor)
{
    size_t longer = bits_of(n), shorter = bits_of(divisor);
    size_t bits = longer < shorter ? 0 : longer - shorter + 1;
    return bits < MOST_BITS ? bits : MOST_BITS;
}

/* The quotient, by long division; n becomes the remainder. False where the quotient has more than MOST_BITS bits. */
static bool divide(struct whole *n, struct whole *divisor, uint64_t *quotient)
{
    size_t bits = quotient_bits(n, divisor);
    *quotient = 0;
    raise(divisor, bits);
    if (compare(n, divisor) >= 0)
        return false;
    for (; bits > 0; bits--) {
        halve(divisor);
        *quotient *= 2;
        if (compare(n, divisor) >= 0) {
            subtract(n, divisor);
            ++*quotient;
        }
    }
    return true;
}

/* n / divisor to the nearest whole number, halves to even. */
static int64_t nearest(struct whole *n, struct whole *divisor, bool *half)
{
    uint64_t quotient;
    *half = false;
    if (!divide(n, divisor, &quotient))
        return EXACT_FAR;
    multiply(n, 2);
    int rest = compare(n, divisor);
    *half = rest == 0;
    if (rest > 0 || (rest == 0 && quotient % 2 == 1))
        quotient++;
    return (int64_t)quotient;
}

struct exact exact_of(double metres)
{
    uint64_t bits = exact_bits(metres), fraction = bits % ((uint64_t)1 << FRACTION_BITS);
    int field = bits >> FRACTION_BITS & HIGHEST_FIELD;
    struct exact x = {field != HIGHEST_FIELD, false, 0};
    if (!x.finite)
        return x;
    struct whole n = whole_of(field == 0 ? fraction : fraction + ((uint64_t)1 << FRACTION_BITS)), divisor = whole_of(1);
    int exponent = field == 0 ? SMALLEST_EXPONENT : SMALLEST_EXPONENT + field - 1;
    multiply(&n, MILLIMETRES_IN_METRE);
    if (exponent < 0)
        raise(&divisor, (size_t)-exponent);
    else
        raise(&n, (size_t)exponent);
    x.millimetres = nearest(&n, &divisor, &x.half);
    if (bits >> 63 == 1)
        x.millimetres = -x.millimetres;
    return x;
}
