/* The rules again in plain C, to compare the library with; it shares no code with it. Winding numbers are counted by the crossing rule,
 * determinants have 128 bits, and every district has a row of its own, so nothing is ever packed. Answers are told as launchramp.h tells
 * them. Refusal 1 is not given here: a plain register has no way to be damaged. Whether lists are well-formed is asked apart. */
#ifndef PLAIN_H
#define PLAIN_H

#include "exact.h"
#include "lists.h"

#define PLAIN_NUMBERS 64
#define PLAIN_FEWEST_VERTICES 3
#define PLAIN_MOST_VERTICES 2048
#define PLAIN_LIMIT 1000000000

/* The refusals by their numbers (docs/RULES.md). */
enum {
    NOT_WELL_FORMED = 1,
    NO_OUTLINE = 2,
    OUTLINE_THERE = 3,
    NO_RING = 4,
    BEYOND_GRID = 5,
    BAD_NUMBER = 6,
    SAME_DISTRICT = 7,
    BAD_INDEX = 8,
    TOO_FEW = 9,
    NO_MATCH = 10,
    NUMBERS_IN_USE = 11,
    NO_ROOM = 12,
    COUNT_FULL = 14,
    NOT_FINITE = 18,
    MISSING = 19,
    LIST_TOO_SHORT = 28
};

/* Laid out as two numbers x, y of a list. */
struct plain_point {
    int32_t x, y;
};

/* No vertices: no ring. */
struct plain_ring {
    size_t n;
    struct plain_point at[PLAIN_MOST_VERTICES];
};

struct plain_register {
    struct plain_ring outline;
    struct plain_ring district[PLAIN_NUMBERS];
};

/* Every value, those without a meaning too, which are 0. */
struct plain_answer {
    uint32_t kind;
    uint64_t values[LAUNCHRAMP_VALUES];
};

/* How many vertices all districts have. */
size_t plain_total(const struct plain_register *g);

/* How many places of a column hold the register; the others are free room. */
size_t plain_used(const struct plain_register *g, enum column c);

struct plain_answer plain_locate(const int32_t *list, size_t length, int32_t x, int32_t y);
struct plain_answer plain_found(struct plain_register *g, const int32_t *list, size_t length);
struct plain_answer plain_split(struct plain_register *g, size_t d, size_t i, size_t j, const int32_t *path, size_t length);
struct plain_answer plain_merge(struct plain_register *g, size_t kept, size_t a, size_t gone, size_t b, size_t k);
struct plain_answer plain_assign(const struct plain_register *g, int32_t x, int32_t y);

/* Point by point, to nine numbers of `answers` each; where all of it is refused they stay as they were. The second counts each in a tally before it goes on to
 * the next. */
struct plain_answer plain_assign_all(const struct plain_register *g, const int32_t *points, size_t length, uint64_t *answers,
                                     size_t answers_length);
struct plain_answer plain_assign_all_counted(const struct plain_register *g, const int32_t *points, size_t length, uint64_t *answers,
                                             size_t answers_length, uint32_t *counts);

struct plain_answer plain_assign_fix(const struct plain_register *g, double easting, double northing);
struct plain_answer plain_assign_missing(const struct plain_register *g);

/* Where a fix is on the grid; `point` is left as it was where that is refused. */
struct plain_answer plain_place(struct exact easting, struct exact northing, struct plain_point *point);

/* The answer to a report after counting it in a tally of LAUNCHRAMP_COUNTS counts. */
struct plain_answer plain_count(uint32_t *counts, struct plain_answer sorted);

/* Whether the five lists have the lengths of a register. */
bool plain_lengths_right(const struct lists *l);

bool plain_well_formed(const struct lists *l);

/* The register that well-formed lists hold. */
void plain_read(struct plain_register *g, const struct lists *l);

/* Whether lists that are known to be well-formed hold this register: every ring, from the same vertex on. */
bool plain_same(const struct plain_register *g, const struct lists *l);

#endif
