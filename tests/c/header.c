/* Compiled as C and as C++ by tests/c/build, and never run: the header stands alone, may be included twice, declares every call on lists and on the struct,
 * names the values of a report on a border, and has the answers of a batch as structs that are lists of numbers. */
#include "launchramp.h"
#include "launchramp.h"

/* No array type where it does not hold. */
typedef char launchramp_answer_is_its_numbers[sizeof(launchramp_answer) == LAUNCHRAMP_ANSWER_LENGTH * sizeof(uint64_t) &&
                                                      LAUNCHRAMP_ANSWER_LENGTH == 1 + LAUNCHRAMP_VALUES
                                                  ? 1
                                                  : -1];

bool asks_every_call(launchramp_register *r, const int32_t *ring, uint32_t *counts);
bool changes_nothing(const launchramp_register *r, uint32_t *counts);
bool sorts_all(const launchramp_register *r, const int32_t *ring, uint32_t *counts);
bool asks_every_list(struct launchramp_register *r, const int32_t *ring, uint32_t *counts);

bool asks_every_call(launchramp_register *r, const int32_t *ring, uint32_t *counts)
{
    int32_t point[2];
    uint64_t values[LAUNCHRAMP_VALUES];
    return launchramp_locate(ring, 8, 2, 2, values) == LAUNCHRAMP_OFF &&
           launchramp_millimetres(0.002, 0.002, point, values) == LAUNCHRAMP_DONE &&
           launchramp_found_in(r, ring, 8, values) == LAUNCHRAMP_DONE &&
           launchramp_split_in(r, 0, 0, 2, ring, 0, values) == LAUNCHRAMP_DONE &&
           launchramp_merge_in(r, 0, 2, 1, 0, 1, values) == LAUNCHRAMP_DONE && changes_nothing(r, counts) && sorts_all(r, ring, counts);
}

bool changes_nothing(const launchramp_register *r, uint32_t *counts)
{
    uint64_t values[LAUNCHRAMP_VALUES];
    return launchramp_well_formed_in(r) && launchramp_assign_in(r, 2, 2, values) == LAUNCHRAMP_ONE &&
           launchramp_assign_in(r, 4, 4, values) == LAUNCHRAMP_BORDER && values[LAUNCHRAMP_VALUE_ON] == LAUNCHRAMP_VERTEX &&
           values[LAUNCHRAMP_VALUE_LOWEST] == values[LAUNCHRAMP_VALUE_HIGHEST] &&
           launchramp_assign_counted_in(r, 2, 2, counts, values) == LAUNCHRAMP_ONE &&
           launchramp_assign_fix_in(r, 0.002, 0.002, values) == LAUNCHRAMP_ONE &&
           launchramp_assign_fix_counted_in(r, 0.002, 0.002, counts, values) == LAUNCHRAMP_ONE &&
           launchramp_assign_missing_in(r, values) == LAUNCHRAMP_REFUSED;
}

bool sorts_all(const launchramp_register *r, const int32_t *ring, uint32_t *counts)
{
    launchramp_answer answers[4];
    uint64_t values[LAUNCHRAMP_VALUES];
    return launchramp_assign_all_in(r, ring, 8, answers, 4, values) == LAUNCHRAMP_DONE && answers[3].kind == LAUNCHRAMP_BORDER &&
           answers[3].values[LAUNCHRAMP_VALUE_ON] == LAUNCHRAMP_VERTEX &&
           launchramp_assign_all_counted_in(r, ring, 8, answers, 4, counts, values) == LAUNCHRAMP_DONE &&
           counts[LAUNCHRAMP_COUNT_BORDER] == 4 &&
           launchramp_assign_all_in(r, ring, 8, answers, 3, values) == LAUNCHRAMP_REFUSED && values[0] == LAUNCHRAMP_LIST_TOO_SHORT;
}

bool asks_every_list(struct launchramp_register *r, const int32_t *ring, uint32_t *counts)
{
    const size_t n = LAUNCHRAMP_COLUMN_LENGTH, m = LAUNCHRAMP_RUNS_LENGTH;
    int32_t *ox = r->outline_x, *oy = r->outline_y, *sx = r->store_x, *sy = r->store_y;
    uint32_t *runs = r->runs;
    uint64_t values[LAUNCHRAMP_VALUES], answers[4 * LAUNCHRAMP_ANSWER_LENGTH];
    return launchramp_found(ox, n, oy, n, sx, n, sy, n, runs, m, ring, 8, values) == LAUNCHRAMP_DONE &&
           launchramp_split(ox, n, oy, n, sx, n, sy, n, runs, m, 0, 0, 2, ring, 0, values) == LAUNCHRAMP_DONE &&
           launchramp_merge(ox, n, oy, n, sx, n, sy, n, runs, m, 0, 2, 1, 0, 1, values) == LAUNCHRAMP_DONE &&
           launchramp_assign(ox, n, oy, n, sx, n, sy, n, runs, m, 2, 2, values) == LAUNCHRAMP_ONE &&
           launchramp_assign_counted(ox, n, oy, n, sx, n, sy, n, runs, m, 2, 2, counts, values) == LAUNCHRAMP_ONE &&
           launchramp_assign_all(ox, n, oy, n, sx, n, sy, n, runs, m, ring, 8, answers, 4 * LAUNCHRAMP_ANSWER_LENGTH, values) ==
               LAUNCHRAMP_DONE &&
           launchramp_assign_all_counted(ox, n, oy, n, sx, n, sy, n, runs, m, ring, 8, answers, 4 * LAUNCHRAMP_ANSWER_LENGTH, counts, values) ==
               LAUNCHRAMP_DONE &&
           launchramp_assign_fix(ox, n, oy, n, sx, n, sy, n, runs, m, 0.002, 0.002, values) == LAUNCHRAMP_ONE &&
           launchramp_assign_fix_counted(ox, n, oy, n, sx, n, sy, n, runs, m, 0.002, 0.002, counts, values) == LAUNCHRAMP_ONE &&
           launchramp_assign_missing(ox, n, oy, n, sx, n, sy, n, runs, m, values) == LAUNCHRAMP_REFUSED &&
           launchramp_well_formed(ox, n, oy, n, sx, n, sy, n, runs, m);
}
