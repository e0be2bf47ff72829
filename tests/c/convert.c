/* convert [SEED]: launchramp_millimetres against exact.h, on made doubles of every exponent and at every edge of the rounding and of the grid.
 * A value is asked as an easting and as a northing, beside another. It prints a line for each class of values: how many, how many of them are
 * exact halves, what the fixes came to, and how many differ; before it the first that do. Status 1 where any does, or where a class did not come
 * to what it must. */
#include "chance.h"
#include "plain.h"

#include <inttypes.h>
#include <math.h>
#include <stdio.h>
#include <stdlib.h>

#define DEFAULT_SEED 10
#define LENGTH(array) (sizeof(array) / sizeof(array)[0])

/* No coordinate of the grid, and no value of an answer. */
#define JUNK 0x5A5A5A5A

/* A double's bits. A field above 0 stands for (2^52 + fraction) 2^(field - 1075), field 0 for fraction 2^-1074. */
#define FRACTIONS ((uint64_t)1 << 52)
#define NOT_FINITE_FIELD 2047
#define BIAS 1075
#define SIGN ((uint64_t)1 << 63)

/* The fields of 2^-11, 2^-4 and 2^19 metres. The least half is 0.0005 m, the least exact one 0.0625 m, and the grid ends at 1,000,000 m. */
#define LEAST_HALF_FIELD 1012
#define LEAST_EXACT_HALF_FIELD 1019
#define LIMIT_FIELD 1042

/* How many differences of a class are printed. */
#define SHOWN 3

static struct chance chance;

/* What came of the class that is being tried. */
static struct {
    uint64_t values, halves, placed, beyond, not_finite, differ;
} came;

struct value {
    double metres;
    struct exact exact;
};

static struct value value_of(double metres)
{
    struct value v = {metres, exact_of(metres)};
    return v;
}

static void print_answer(const char *who, uint32_t kind, const uint64_t *values, const int32_t *point)
{
    printf("    %-10s kind %" PRIu32 ", values", who, kind);
    for (size_t k = 0; k < LAUNCHRAMP_VALUES; k++)
        printf(" %" PRIu64, values[k]);
    printf(", point %" PRId32 " %" PRId32 "\n", point[0], point[1]);
}

static void count(struct plain_answer answer)
{
    if (answer.kind == LAUNCHRAMP_DONE)
        came.placed++;
    else if (answer.values[0] == BEYOND_GRID)
        came.beyond++;
    else
        came.not_finite++;
}

/* The answer, all its values, the point, written or left, and that nothing behind either list is touched. */
static void ask(const struct value *easting, const struct value *northing)
{
    int32_t point[] = {JUNK, JUNK, JUNK};
    uint64_t values[LAUNCHRAMP_VALUES + 1];
    struct plain_point at = {JUNK, JUNK};
    struct plain_answer expected = plain_place(easting->exact, northing->exact, &at);
    const int32_t left[] = {at.x, at.y, JUNK};
    for (size_t k = 0; k < LENGTH(values); k++)
        values[k] = JUNK;
    uint32_t kind = launchramp_millimetres(easting->metres, northing->metres, point, values);
    count(expected);
    if (kind == expected.kind && memcmp(values, expected.values, sizeof expected.values) == 0 && values[LAUNCHRAMP_VALUES] == JUNK &&
        memcmp(point, left, sizeof left) == 0)
        return;
    if (came.differ++ >= SHOWN)
        return;
    printf("  differs: easting %.17g (%016" PRIx64 "), northing %.17g (%016" PRIx64 ")\n", easting->metres, exact_bits(easting->metres),
           northing->metres, exact_bits(northing->metres));
    print_answer("launchramp", kind, values, point);
    print_answer("exactly", expected.kind, expected.values, left);
}

/* Ordinary values, no two alike in millimetres. */
static struct value beside[16];

static void make_beside(void)
{
    for (size_t i = 0; i < LENGTH(beside); i++)
        beside[i] = value_of((16 * chance_between(&chance, -60000000, 60000000) + (int32_t)i) / 1000.0);
}

static struct value check(double metres)
{
    const struct value v = value_of(metres), *other = &beside[chance_below(&chance, LENGTH(beside))];
    came.values++;
    came.halves += v.exact.half;
    ask(&v, other);
    ask(other, &v);
    return v;
}

static void check_both_signs(uint64_t bits)
{
    check(exact_double(bits));
    check(exact_double(bits | SIGN));
}

/* A double and so many to each side of it, of both signs. */
static void check_around(uint64_t bits, uint64_t steps)
{
    for (uint64_t near = bits - steps; near <= bits + steps; near++)
        check_both_signs(near);
}

/* What is known of exact.h's answer without it. */
static void expect(struct value v, bool known, const char *what)
{
    if (known)
        return;
    if (came.differ++ < SHOWN)
        printf("  exact.h has %" PRId64 " mm for %.17g m, which %s\n", v.exact.millimetres, v.metres, what);
}

static uint64_t double_of(uint64_t field, uint64_t fraction)
{
    return field * FRACTIONS + fraction;
}

static uint64_t made_fraction(void)
{
    return chance_next(&chance) % FRACTIONS;
}

/* Of any size, small ones too. */
static uint64_t made_small_fraction(void)
{
    size_t bits = chance_below(&chance, 52);
    return made_fraction() >> bits;
}

/* ---- the classes ---- */

static void known_values(void)
{
    static const struct {
        double metres;
        int64_t millimetres;
    } known[] = {
        {0.0625, 62}, {0.1875, 188}, {-0.0625, -62}, {-0.1875, -188}, {0.3125, 312}, {0.4375, 438},
        {0.0, 0}, {-0.0, 0}, {4.9e-324, 0}, {-4.9e-324, 0}, {0.00049, 0}, {0.001, 1}, {0.1, 100}, {1.0, 1000},
        {0.0005, 1}, {-0.0005, -1}, {0.0015, 2}, {2.0005, 2001}, {-2.0005, -2001}, {123456.789, 123456789}, {-999999.999, -999999999},
        {1000000.0, 1000000000}, {1000000.0005, 1000000000}, {1000000.0005000001, 1000000001}, {-1000000.0005000001, -1000000001},
        {2147483.648, 2147483648}, {4294967.296, 4294967296}, {1099511627776.0, 1099511627776000}, {-1.7e308, -EXACT_FAR},
    };
    for (size_t i = 0; i < LENGTH(known); i++) {
        struct value v = check(known[i].metres);
        expect(v, v.exact.finite && v.exact.millimetres == known[i].millimetres, "is known to be another number");
    }
}

/* Fractions of no bit, of all, of one, of all but one, and made ones. */
static void every_exponent(void)
{
    for (uint64_t field = 0; field < NOT_FINITE_FIELD; field++) {
        check_both_signs(double_of(field, 0));
        check_both_signs(double_of(field, FRACTIONS - 1));
        for (uint64_t bit = 1; bit < FRACTIONS; bit *= 2) {
            check_both_signs(double_of(field, bit));
            check_both_signs(double_of(field, FRACTIONS - 1 - bit));
        }
        for (int t = 0; t < 100; t++)
            check_both_signs(double_of(field, made_fraction()));
    }
}

/* From a quarter of a millimetre to a little beyond the grid. */
static void every_exponent_on_the_grid(void)
{
    for (uint64_t field = LEAST_HALF_FIELD - 1; field <= LIMIT_FIELD + 1; field++)
        for (int t = 0; t < 20000; t++)
            check_both_signs(double_of(field, made_fraction()));
}

/* h + 1/2 millimetres are n / 2,000 metres with an odd n, and that is a double only where 125 divides n: an odd number of sixteenths. The
 * first is 1/16 m; from 2^49 m on, sixteenths are not told apart. By the highest bit of the odd number: all of few, many of many. */
static void exact_halves(void)
{
    const uint64_t many = 4096;
    for (uint64_t high = 0; high <= 52; high++) {
        uint64_t odds = high == 0 ? 1 : (uint64_t)1 << (high - 1);
        for (uint64_t t = 0; t < odds && t < many; t++) {
            /* Without the highest bit, which a double does not hold. */
            uint64_t rest = high == 0 ? 0 : 2 * (odds <= many ? t : chance_next(&chance) % odds) + 1;
            uint64_t half = double_of(LEAST_EXACT_HALF_FIELD + high, rest << (52 - high));
            struct value v = value_of(exact_double(half));
            expect(v, v.exact.half, "is known to be a half");
            check_around(half, 1);
        }
    }
}

/* The doubles nearest to h + 1/2 millimetres, below and above: times 1,000 in doubles, many would be halves. */
static void nearly_halves(void)
{
    for (uint64_t field = LEAST_HALF_FIELD; field <= LIMIT_FIELD; field++) {
        const uint64_t power = BIAS - field;
        for (int t = 0; t < 4000; t++) {
            uint64_t n = ((FRACTIONS + made_fraction()) * 2000 >> power) | 1, below = (n << power) / 2000;
            if (FRACTIONS <= below && below < 2 * FRACTIONS)
                check_around(double_of(field, below - FRACTIONS), 2);
        }
    }
}

static void subnormals(void)
{
    check_around(double_of(0, 100), 100);
    check_around(double_of(1, 0), 100);
    for (int t = 0; t < 20000; t++)
        check_both_signs(double_of(0, made_small_fraction()));
}

static void limits_of_the_grid(void)
{
    static const double limits[] = {1000000.0005, 999999.9995, 1000000.0, 1000000.001, 1000000.0015, 1048576.0};
    for (size_t i = 0; i < LENGTH(limits); i++)
        check_around(exact_bits(limits[i]), 50);
}

/* What 32 or 64 bits of millimetres would take for a point of the grid, or for its negative. */
static void far_values(void)
{
    static const double turns[] = {2147483.648, 4294967.296, 8589934.592, 9223372036854775.808, 18446744073709551.616};
    for (size_t i = 0; i < LENGTH(turns); i++) {
        check_around(exact_bits(turns[i]), 50);
        for (int t = 0; t < 20000; t++)
            check_both_signs(exact_bits(turns[i] + chance_between(&chance, -PLAIN_LIMIT, PLAIN_LIMIT) / 1000.0));
    }
}

/* The double nearest to a point of the grid stands for that point. */
static void points_in_metres(void)
{
    for (int t = 0; t < 300000; t++) {
        int32_t limit = PLAIN_LIMIT >> chance_below(&chance, 30), n = chance_between(&chance, -limit, limit);
        struct value v = check(n / 1000.0);
        expect(v, v.exact.millimetres == n, "is the nearest to another point");
    }
}

/* NaNs, quiet and signalling, of both signs and several patterns; infinities; huge, ordinary and tiny ones. All beside all. */
static void not_finite_values(void)
{
    static const uint64_t kinds[] = {
        0x7FF8000000000000, 0xFFF8000000000000, 0x7FF0000000000001, 0xFFF0000000000001, 0x7FFFFFFFFFFFFFFF, 0xFFFFFFFFFFFFFFFF,
        0x7FF7FFFFFFFFFFFF, 0xFFF4000000000000, 0x7FF80000DEADBEEF, 0x7FF0000000000000, 0xFFF0000000000000, 0x7FEFFFFFFFFFFFFF,
        0xFFEFFFFFFFFFFFFF, 0x7FE0000000000000, 0x412E848000000000, 0xC12E848000000000, 0x412E848100000000, 0x3FB0000000000000,
        0xBFC8000000000000, 0x4000000000000000, 0x0000000000000000, 0x8000000000000000, 0x0000000000000001, 0x800FFFFFFFFFFFFF,
    };
    for (size_t i = 0; i < LENGTH(kinds); i++) {
        struct value easting = check(exact_double(kinds[i]));
        for (size_t j = 0; j < LENGTH(kinds); j++) {
            struct value northing = value_of(exact_double(kinds[j]));
            ask(&easting, &northing);
        }
    }
    for (int t = 0; t < 20000; t++)
        check_both_signs(double_of(NOT_FINITE_FIELD, made_small_fraction()));
}

/* ---- fixes of two made values ---- */

/* From the smallest doubles to infinities and NaNs. */
static double any_bits(void)
{
    return exact_double(chance_next(&chance));
}

/* Up to 2^20 metres, with fractions. */
static double of_a_town(void)
{
    uint64_t field = LEAST_HALF_FIELD + chance_below(&chance, LIMIT_FIELD + 1 - LEAST_HALF_FIELD);
    return exact_double(double_of(field, made_fraction()));
}

/* Half way between two millimetres, or the double nearest to that, or one beside it. */
static double half_way(void)
{
    uint64_t odd = 2 * chance_below(&chance, PLAIN_LIMIT) + 1, sixteenths = odd % ((uint64_t)1 << 24);
    double half = chance_below(&chance, 2) == 0 ? sixteenths / 16.0 : odd / 2000.0;
    return exact_double(exact_bits(half) + chance_below(&chance, 3) - 1);
}

/* Round the last millimetre on the grid and the first that is not. */
static double at_the_limit(void)
{
    static const double limits[] = {1000000.0005, 999999.9995, 1000000.0};
    return exact_double(exact_bits(limits[chance_below(&chance, LENGTH(limits))]) + chance_below(&chance, 19) - 9);
}

static double not_finite(void)
{
    return chance_below(&chance, 2) == 0 ? INFINITY : exact_double(double_of(NOT_FINITE_FIELD, 1 + made_small_fraction() / 2));
}

static double far_away(void)
{
    return exact_double(double_of(LIMIT_FIELD + 1 + chance_below(&chance, NOT_FINITE_FIELD - LIMIT_FIELD - 1), made_fraction()));
}

static double (*const kinds[])(void) = {any_bits, of_a_town, half_way, at_the_limit, not_finite, far_away};

static struct value made_value(size_t kind)
{
    double metres = kinds[kind]();
    return value_of(chance_below(&chance, 2) == 0 ? -metres : metres);
}

/* Every kind beside every kind. */
static void made_fixes(void)
{
    for (size_t pair = 0; pair < LENGTH(kinds) * LENGTH(kinds); pair++)
        for (int t = 0; t < 20000; t++) {
            struct value easting = made_value(pair / LENGTH(kinds)), northing = made_value(pair % LENGTH(kinds));
            came.values += 2;
            came.halves += easting.exact.half + northing.exact.half;
            ask(&easting, &northing);
        }
}

/* ---- all classes ---- */

static uint64_t all_values, all_differ;

/* What the values of a class must come to. */
enum { HALVES = 1, PLACED = 2, BEYOND = 4, NO_NUMBER = 8 };

static const struct class {
    const char *name;
    void (*make)(void);
    unsigned must;
} classes[] = {
    {"known values", known_values, HALVES | PLACED | BEYOND},
    {"every exponent", every_exponent, HALVES | PLACED | BEYOND},
    {"every exponent on the grid", every_exponent_on_the_grid, PLACED | BEYOND},
    {"exact halves, beside them", exact_halves, HALVES | PLACED | BEYOND},
    {"nearly halves", nearly_halves, PLACED | BEYOND},
    {"subnormals", subnormals, PLACED},
    {"the grid's limits", limits_of_the_grid, PLACED | BEYOND},
    {"far values", far_values, BEYOND},
    {"points of the grid in metres", points_in_metres, PLACED},
    {"not finite", not_finite_values, PLACED | BEYOND | NO_NUMBER},
    {"made fixes", made_fixes, HALVES | PLACED | BEYOND | NO_NUMBER},
};

static void try_class(const struct class *class)
{
    memset(&came, 0, sizeof came);
    class->make();
    unsigned met = (came.halves > 0 ? HALVES : 0) | (came.placed > 0 ? PLACED : 0) | (came.beyond > 0 ? BEYOND : 0) |
                   (came.not_finite > 0 ? NO_NUMBER : 0);
    if ((met & class->must) != class->must) {
        printf("  not asked all that it must be\n");
        came.differ++;
    }
    printf("%-30s %7" PRIu64 " values, %6" PRIu64 " halves; fixes: %7" PRIu64 " placed, %7" PRIu64 " [5], %5" PRIu64 " [18]; %" PRIu64 " differ\n",
           class->name, came.values, came.halves, came.placed, came.beyond, came.not_finite, came.differ);
    fflush(stdout);
    all_values += came.values;
    all_differ += came.differ;
}

int main(int count, char **words)
{
    chance.state = count > 1 ? (uint64_t)atoll(words[1]) : DEFAULT_SEED;
    make_beside();
    for (size_t i = 0; i < LENGTH(classes); i++)
        try_class(&classes[i]);
    printf("%" PRIu64 " values of metres, %" PRIu64 " differ\n", all_values, all_differ);
    return all_differ == 0 ? 0 : 1;
}
