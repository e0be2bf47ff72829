/* launchramp.h: the calls of liblaunchramp, for C and C++. Where a point lies, and districts that are split, merged and asked, all exactly.
 *
 * A register is five lists that the caller keeps: the outline's vertices in two columns, all x and all y, the store with the rings of all districts in two
 * more, and the runs. struct launchramp_register has them all; zeros are an empty register. The calls whose names end in _in take that struct. The others
 * take each list with its length, wherever it stands: ox and oy are the outline's columns, sx and sy the store's.
 * Rings and paths that are handed over are lists x, y, x, y, ..; coordinates are whole millimetres. A list's length is told in numbers, not in points or
 * bytes. Vertices are numbered from 0 in the list's order. Edge i goes from vertex i to the next one, the last edge back to vertex 0.
 * runs[0] is the outline's number of vertices (0: no outline); runs[1 + d] is the place in both columns of the store where district d's ring begins, and
 * runs[65 + d] how many vertices it has (0: the number is unused). Read the lists; only the calls should write them.
 * Every call takes every input: lists of any length and content, any number, NaNs too. What the rules refuse is answered
 * LAUNCHRAMP_REFUSED, and a refused call changes no list and no count. Lists that one call is lent must not overlap where one of them is changed.
 * A pointer must not be null, not even where its length is 0: the compiled code may take that for granted. An empty path is any pointer with length 0.
 * `values` has LAUNCHRAMP_VALUES places and `counts` LAUNCHRAMP_COUNTS; their lengths are not handed over.
 *
 * A report's position is one of three: a point of the grid (launchramp_assign), a receiver's fix (launchramp_assign_fix) or missing
 * (launchramp_assign_missing). A fix is an easting and a northing, doubles of metres. Each becomes the nearest millimetre of its exact value,
 * halves to even: 0.0625 is 62, 0.1875 is 188, -0.0 is 0. Refusal 19 is a missing position, 18 a NaN or an infinity in either value, whatever
 * the other is; both come after 2. Then comes 5, which goes by the millimetres.
 *
 * An answer is its kind, which is returned, and its values. A call that is lent `values` writes all places of it, and 0 to those that are not named here:
 *
 *   LAUNCHRAMP_REFUSED   0: the refusal's number, LAUNCHRAMP_NOT_WELL_FORMED to LAUNCHRAMP_LIST_TOO_SHORT
 *   LAUNCHRAMP_DONE      0: the number of the district that was made (split), kept (merge) or founded (0); of a fix's millimetres and of many reports 0
 *   LAUNCHRAMP_VERTEX    0: the lowest index of a vertex that is the point; 1: the highest such index
 *   LAUNCHRAMP_EDGE      0: the lowest index of an edge that holds the point, which is no vertex; 1: the highest such index
 *   LAUNCHRAMP_OFF       0: the size of the winding number; 1: 1 where it is negative
 *   LAUNCHRAMP_BORDER    0: the lowest district on whose ring the report is, and where it is on that one ring:
 *                        LAUNCHRAMP_VALUE_ON (2): LAUNCHRAMP_VERTEX or LAUNCHRAMP_EDGE;
 *                        LAUNCHRAMP_VALUE_LOWEST (3) and LAUNCHRAMP_VALUE_HIGHEST (4): the lowest and the highest index, as above
 *   LAUNCHRAMP_ONE       0: the district that alone holds the report
 *   LAUNCHRAMP_NONE      (no district holds it)
 *   LAUNCHRAMP_SEVERAL   0: the lowest of the districts that hold the report; 1: how many they are
 */
#ifndef LAUNCHRAMP_H
#define LAUNCHRAMP_H

#include <stdbool.h>
#include <stddef.h>
#include <stdint.h>

#ifdef __cplusplus
extern "C" {
#endif

/* The version of the library that this header is of. */
#define LAUNCHRAMP_VERSION "0.6.0"

/* How long each of the four columns is, and how long the runs are. Lists of other lengths are refused by 1. */
#define LAUNCHRAMP_COLUMN_LENGTH 2048
#define LAUNCHRAMP_RUNS_LENGTH 129

/* Vertex i of the outline is outline_x[i], outline_y[i]; vertex i of district d is store_x[p], store_y[p] with p = runs[1 + d] + i. */
typedef struct launchramp_register {
    int32_t outline_x[LAUNCHRAMP_COLUMN_LENGTH];
    int32_t outline_y[LAUNCHRAMP_COLUMN_LENGTH];
    int32_t store_x[LAUNCHRAMP_COLUMN_LENGTH];
    int32_t store_y[LAUNCHRAMP_COLUMN_LENGTH];
    uint32_t runs[LAUNCHRAMP_RUNS_LENGTH];
} launchramp_register;

/* A tally: 64 counts of One, one for each district number, then those of Border, None and Several. Zeros are a fresh tally. */
#define LAUNCHRAMP_COUNTS 67
#define LAUNCHRAMP_COUNT_BORDER 64
#define LAUNCHRAMP_COUNT_NONE 65
#define LAUNCHRAMP_COUNT_SEVERAL 66

/* How many values an answer has, and which of them tell where on a district's ring a report is. */
#define LAUNCHRAMP_VALUES 8
#define LAUNCHRAMP_VALUE_ON 2
#define LAUNCHRAMP_VALUE_LOWEST 3
#define LAUNCHRAMP_VALUE_HIGHEST 4

/* An answer of launchramp_assign_all and launchramp_assign_all_counted: its kind, then its values. It is LAUNCHRAMP_ANSWER_LENGTH numbers with nothing between them. */
#define LAUNCHRAMP_ANSWER_LENGTH 9
typedef struct launchramp_answer {
    uint64_t kind;
    uint64_t values[LAUNCHRAMP_VALUES];
} launchramp_answer;

enum {
    LAUNCHRAMP_REFUSED = 0,
    LAUNCHRAMP_DONE = 1,
    LAUNCHRAMP_VERTEX = 2,
    LAUNCHRAMP_EDGE = 3,
    LAUNCHRAMP_OFF = 4,
    LAUNCHRAMP_BORDER = 5,
    LAUNCHRAMP_ONE = 6,
    LAUNCHRAMP_NONE = 7,
    LAUNCHRAMP_SEVERAL = 8
};

/* Why a call is refused. Each call asks in the order in which its refusals are listed below, and the first that holds is answered. */
enum {
    LAUNCHRAMP_NOT_WELL_FORMED = 1, /* the lists are no well-formed register */
    LAUNCHRAMP_NO_OUTLINE = 2,
    LAUNCHRAMP_OUTLINE_THERE = 3,
    LAUNCHRAMP_NO_RING = 4,         /* a list of odd length, or fewer than 3 or more than 2,048 vertices */
    LAUNCHRAMP_BEYOND_GRID = 5,     /* a coordinate beyond +-1,000,000,000 */
    LAUNCHRAMP_BAD_NUMBER = 6,      /* a district's number above 63 or unused */
    LAUNCHRAMP_SAME_DISTRICT = 7,   /* a merge of a district with itself */
    LAUNCHRAMP_BAD_INDEX = 8,       /* no such vertex, or a split with i = j */
    LAUNCHRAMP_TOO_FEW = 9,         /* a piece or a result of fewer than 3 vertices */
    LAUNCHRAMP_NO_MATCH = 10,       /* the borders do not match, or k is 0 or as large as a ring */
    LAUNCHRAMP_NUMBERS_IN_USE = 11, /* all 64 */
    LAUNCHRAMP_NO_ROOM = 12,        /* more than 2,048 vertices in all districts afterwards */
    LAUNCHRAMP_COUNT_FULL = 14,     /* the count to be raised is 4,294,967,295 */
    LAUNCHRAMP_NOT_FINITE = 18,     /* a NaN or an infinity in a fix */
    LAUNCHRAMP_MISSING = 19,        /* a missing position */
    LAUNCHRAMP_LIST_TOO_SHORT = 28  /* a list that is lent for the result is too short for it */
};

/* Where a point lies against one ring: VERTEX, EDGE, OFF; refusals 4, 5. */
uint32_t launchramp_locate(const int32_t *ring, size_t ring_length, int32_t x, int32_t y, uint64_t *values);

/* Whether the lists are a well-formed register; every other call on a register asks this first and refuses by 1. */
bool launchramp_well_formed(const int32_t *ox, size_t ox_length, const int32_t *oy, size_t oy_length,
                            const int32_t *sx, size_t sx_length, const int32_t *sy, size_t sy_length,
                            const uint32_t *runs, size_t runs_length);

/* Stores the outline, and makes district 0 with the same ring: DONE; refusals 1, 3, 4, 5. */
uint32_t launchramp_found(int32_t *ox, size_t ox_length, int32_t *oy, size_t oy_length,
                          int32_t *sx, size_t sx_length, int32_t *sy, size_t sy_length,
                          uint32_t *runs, size_t runs_length, const int32_t *ring, size_t ring_length, uint64_t *values);

/* Splits district d from its vertex i to its vertex j along a path: DONE; refusals 1, 2, 6, 8, 4 (a path of odd length), 5, 9, 11, 12. The piece from i
 * forward to j and back along the path keeps number d; the piece from j forward to i and on along the path takes the lowest unused number. */
uint32_t launchramp_split(const int32_t *ox, size_t ox_length, const int32_t *oy, size_t oy_length,
                          int32_t *sx, size_t sx_length, int32_t *sy, size_t sy_length,
                          uint32_t *runs, size_t runs_length, size_t d, size_t i, size_t j, const int32_t *path, size_t path_length,
                          uint64_t *values);

/* Merges district `gone` into district `kept` along k edges: DONE; refusals 1, 2, 6, 7, 8, 10, 9. The border is kept's vertices a, a+1, .., a+k and
 * gone's vertices b, b-1, .., b-k: as both rings go round the same way, gone's runs backward. */
uint32_t launchramp_merge(const int32_t *ox, size_t ox_length, const int32_t *oy, size_t oy_length,
                          int32_t *sx, size_t sx_length, int32_t *sy, size_t sy_length,
                          uint32_t *runs, size_t runs_length, size_t kept, size_t a, size_t gone, size_t b, size_t k, uint64_t *values);

/* Sorts a report at a point: BORDER, ONE, NONE, SEVERAL; refusals 1, 2, 5. */
uint32_t launchramp_assign(const int32_t *ox, size_t ox_length, const int32_t *oy, size_t oy_length,
                           const int32_t *sx, size_t sx_length, const int32_t *sy, size_t sy_length,
                           const uint32_t *runs, size_t runs_length, int32_t x, int32_t y, uint64_t *values);

/* The same, and raises its count in a tally of LAUNCHRAMP_COUNTS counts: refusal 14 too, where the count is full. */
uint32_t launchramp_assign_counted(const int32_t *ox, size_t ox_length, const int32_t *oy, size_t oy_length,
                                   const int32_t *sx, size_t sx_length, const int32_t *sy, size_t sy_length,
                                   const uint32_t *runs, size_t runs_length, int32_t x, int32_t y, uint32_t *counts, uint64_t *values);

/* Sorts the reports at all points of a list x, y, x, y, .., each exactly as launchramp_assign does, in much less time where there are many: it tests the
 * register only once, and makes an index of it. DONE; refusals 1, 2, 4 (an odd number of coordinates), 28 (answers_length / LAUNCHRAMP_ANSWER_LENGTH is less
 * than points_length / 2), and then `answers` stays as it was. No points are no refusal.
 * Each answer is LAUNCHRAMP_ANSWER_LENGTH numbers of `answers`: the kind that launchramp_assign returns, then its LAUNCHRAMP_VALUES values. Answers stand one
 * after the other from the front, in the points' order; what stands behind them stays as it was. A point beyond the grid is refused in its own place, by
 * LAUNCHRAMP_REFUSED and 5, and the other points are answered. */
uint32_t launchramp_assign_all(const int32_t *ox, size_t ox_length, const int32_t *oy, size_t oy_length,
                               const int32_t *sx, size_t sx_length, const int32_t *sy, size_t sy_length,
                               const uint32_t *runs, size_t runs_length, const int32_t *points, size_t points_length,
                               uint64_t *answers, size_t answers_length, uint64_t *values);

/* The same, and raises the count of each in a tally of LAUNCHRAMP_COUNTS counts: each answer is what launchramp_assign_counted gives, called point after
 * point. A report whose count is full by then is refused in its own place, by LAUNCHRAMP_REFUSED and 14, and the others are answered and counted. Where the
 * whole call is refused, `counts` stays as it was too. */
uint32_t launchramp_assign_all_counted(const int32_t *ox, size_t ox_length, const int32_t *oy, size_t oy_length,
                                       const int32_t *sx, size_t sx_length, const int32_t *sy, size_t sy_length,
                                       const uint32_t *runs, size_t runs_length, const int32_t *points, size_t points_length,
                                       uint64_t *answers, size_t answers_length, uint32_t *counts, uint64_t *values);

/* Writes the millimetres x, y of a fix to `point`, which has two places: DONE; refusals 18, 5, and then `point` stays as it was. */
uint32_t launchramp_millimetres(double easting, double northing, int32_t *point, uint64_t *values);

/* Sorts a report by a receiver's fix: BORDER, ONE, NONE, SEVERAL; refusals 1, 2, 18, 5. */
uint32_t launchramp_assign_fix(const int32_t *ox, size_t ox_length, const int32_t *oy, size_t oy_length,
                               const int32_t *sx, size_t sx_length, const int32_t *sy, size_t sy_length,
                               const uint32_t *runs, size_t runs_length, double easting, double northing, uint64_t *values);

/* The same, and raises its count in a tally of LAUNCHRAMP_COUNTS counts: refusal 14 too, where the count is full. */
uint32_t launchramp_assign_fix_counted(const int32_t *ox, size_t ox_length, const int32_t *oy, size_t oy_length,
                                       const int32_t *sx, size_t sx_length, const int32_t *sy, size_t sy_length,
                                       const uint32_t *runs, size_t runs_length, double easting, double northing, uint32_t *counts,
                                       uint64_t *values);

/* Refuses a report whose position is missing: refusals 1, 2, 19. A tally would count nothing. */
uint32_t launchramp_assign_missing(const int32_t *ox, size_t ox_length, const int32_t *oy, size_t oy_length,
                                   const int32_t *sx, size_t sx_length, const int32_t *sy, size_t sy_length,
                                   const uint32_t *runs, size_t runs_length, uint64_t *values);

/* The same calls on a register in one struct. */

#define LAUNCHRAMP_LISTS(r)                                                             \
    (r)->outline_x, LAUNCHRAMP_COLUMN_LENGTH, (r)->outline_y, LAUNCHRAMP_COLUMN_LENGTH, \
    (r)->store_x, LAUNCHRAMP_COLUMN_LENGTH, (r)->store_y, LAUNCHRAMP_COLUMN_LENGTH,     \
    (r)->runs, LAUNCHRAMP_RUNS_LENGTH

static inline bool launchramp_well_formed_in(const launchramp_register *r)
{
    return launchramp_well_formed(LAUNCHRAMP_LISTS(r));
}

static inline uint32_t launchramp_found_in(launchramp_register *r, const int32_t *ring, size_t ring_length, uint64_t *values)
{
    return launchramp_found(LAUNCHRAMP_LISTS(r), ring, ring_length, values);
}

static inline uint32_t launchramp_split_in(launchramp_register *r, size_t d, size_t i, size_t j, const int32_t *path,
                                           size_t path_length, uint64_t *values)
{
    return launchramp_split(LAUNCHRAMP_LISTS(r), d, i, j, path, path_length, values);
}

static inline uint32_t launchramp_merge_in(launchramp_register *r, size_t kept, size_t a, size_t gone, size_t b, size_t k,
                                           uint64_t *values)
{
    return launchramp_merge(LAUNCHRAMP_LISTS(r), kept, a, gone, b, k, values);
}

static inline uint32_t launchramp_assign_in(const launchramp_register *r, int32_t x, int32_t y, uint64_t *values)
{
    return launchramp_assign(LAUNCHRAMP_LISTS(r), x, y, values);
}

static inline uint32_t launchramp_assign_counted_in(const launchramp_register *r, int32_t x, int32_t y, uint32_t *counts,
                                                    uint64_t *values)
{
    return launchramp_assign_counted(LAUNCHRAMP_LISTS(r), x, y, counts, values);
}

/* The answers are lent as so many structs. */
static inline uint32_t launchramp_assign_all_in(const launchramp_register *r, const int32_t *points, size_t points_length,
                                                launchramp_answer *answers, size_t answers_count, uint64_t *values)
{
    return launchramp_assign_all(LAUNCHRAMP_LISTS(r), points, points_length, (uint64_t *)answers,
                                 answers_count * LAUNCHRAMP_ANSWER_LENGTH, values);
}

static inline uint32_t launchramp_assign_all_counted_in(const launchramp_register *r, const int32_t *points, size_t points_length,
                                                        launchramp_answer *answers, size_t answers_count, uint32_t *counts,
                                                        uint64_t *values)
{
    return launchramp_assign_all_counted(LAUNCHRAMP_LISTS(r), points, points_length, (uint64_t *)answers,
                                         answers_count * LAUNCHRAMP_ANSWER_LENGTH, counts, values);
}

static inline uint32_t launchramp_assign_fix_in(const launchramp_register *r, double easting, double northing, uint64_t *values)
{
    return launchramp_assign_fix(LAUNCHRAMP_LISTS(r), easting, northing, values);
}

static inline uint32_t launchramp_assign_fix_counted_in(const launchramp_register *r, double easting, double northing,
                                                        uint32_t *counts, uint64_t *values)
{
    return launchramp_assign_fix_counted(LAUNCHRAMP_LISTS(r), easting, northing, counts, values);
}

static inline uint32_t launchramp_assign_missing_in(const launchramp_register *r, uint64_t *values)
{
    return launchramp_assign_missing(LAUNCHRAMP_LISTS(r), values);
}

#undef LAUNCHRAMP_LISTS

#ifdef __cplusplus
}
#endif

#endif
