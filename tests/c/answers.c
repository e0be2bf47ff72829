/* What answers.h promises. */
#include "answers.h"

#include <inttypes.h>
#include <stdio.h>
#include <string.h>

#define CANARY UINT64_C(0x5A5A5A5A5A5A5A5A)

/* Fewer say nothing, of each small size, and of all larger ones together. */
#define FEWEST_OF_A_SIZE 500
#define FEWEST_LARGER 300

union answers answers_got, answers_expected;

/* Kinds of points that are answered, then of batches. A batch that could be refused by a later number too is counted with MORE_WRONG. */
enum sort {
    AT_ONE_VERTEX,
    AT_VERTICES,
    ON_ONE_EDGE,
    ON_EDGES,
    IN_ONE,
    IN_NONE,
    IN_SEVERAL,
    BEYOND,
    COUNT_IS_FULL,
    FULL_BETWEEN,
    EXACT_ROOM,
    MORE_ROOM,
    DAMAGED,
    DAMAGED_MORE_WRONG,
    UNFOUNDED,
    UNFOUNDED_MORE_WRONG,
    ODD,
    ODD_MORE_WRONG,
    TOO_SHORT,
    SHORT_BY_ONE,
    SORTS
};

static const struct {
    const char *name;
    /* Fewer say nothing. */
    uint64_t fewest;
} sorts[SORTS] = {
    [AT_ONE_VERTEX] = {"points at one vertex", 50000},
    [AT_VERTICES] = {"points at more than one", 30000},
    [ON_ONE_EDGE] = {"points on one edge", 80000},
    [ON_EDGES] = {"points on more than one", 20000},
    [IN_ONE] = {"points in one district", 40000},
    [IN_NONE] = {"points in none", 150000},
    [IN_SEVERAL] = {"points in several", 50000},
    [BEYOND] = {"points beyond the grid", 20000},
    [COUNT_IS_FULL] = {"points whose count is full", 50000},
    [FULL_BETWEEN] = {"batches with such a point between others", 5000},
    [EXACT_ROOM] = {"batches with nothing behind the answers", 5000},
    [MORE_ROOM] = {"batches with numbers behind the answers", 5000},
    [DAMAGED] = {"refused by 1", 5000},
    [DAMAGED_MORE_WRONG] = {"refused by 1, with odd or too short a list", 1000},
    [UNFOUNDED] = {"refused by 2", 600},
    [UNFOUNDED_MORE_WRONG] = {"refused by 2, with odd or too short a list", 100},
    [ODD] = {"refused by 4", 1000},
    [ODD_MORE_WRONG] = {"refused by 4, with too short a list", 100},
    [TOO_SHORT] = {"refused by 28", 500},
    [SHORT_BY_ONE] = {"refused by 28, for one number", 500},
};

static uint64_t came[SORTS];

/* Of batches that are not counted, and of those that are: of each small size, then of all larger ones. */
static uint64_t sizes[2][ANSWERS_SMALL_BATCH + 2];

void answers_lend(size_t length)
{
    for (size_t k = 0; k < length + ANSWERS_BEHIND; k++)
        answers_got.numbers[k] = answers_expected.numbers[k] = CANARY + k;
}

bool answers_same(size_t length)
{
    return memcmp(answers_got.numbers, answers_expected.numbers, (length + ANSWERS_BEHIND) * sizeof answers_got.numbers[0]) == 0;
}

void answers_print(size_t length)
{
    size_t k = 0;
    while (k < length + ANSWERS_BEHIND && answers_got.numbers[k] == answers_expected.numbers[k])
        k++;
    if (k < length + ANSWERS_BEHIND)
        printf("  number %zu of the list of answers: %" PRIu64 ", in plain C %" PRIu64 "\n", k, answers_got.numbers[k],
               answers_expected.numbers[k]);
}

static enum sort sort_of(const launchramp_answer *answer)
{
    const uint64_t *values = answer->values;
    const bool same = values[LAUNCHRAMP_VALUE_LOWEST] == values[LAUNCHRAMP_VALUE_HIGHEST];
    switch (answer->kind) {
    case LAUNCHRAMP_BORDER:
        if (values[LAUNCHRAMP_VALUE_ON] == LAUNCHRAMP_VERTEX)
            return same ? AT_ONE_VERTEX : AT_VERTICES;
        return same ? ON_ONE_EDGE : ON_EDGES;
    case LAUNCHRAMP_ONE:
        return IN_ONE;
    case LAUNCHRAMP_NONE:
        return IN_NONE;
    case LAUNCHRAMP_SEVERAL:
        return IN_SEVERAL;
    default:
        return values[0] == COUNT_FULL ? COUNT_IS_FULL : BEYOND;
    }
}

/* Whether a full count came between two reports that were counted. */
static bool full_between(size_t many)
{
    bool before = false, full = false;
    for (size_t i = 0; i < many; i++) {
        enum sort sort = sort_of(&answers_got.each[i]);
        if (sort == COUNT_IS_FULL)
            full = before;
        else if (sort != BEYOND && full)
            return true;
        else if (sort != BEYOND)
            before = true;
    }
    return false;
}

static void count_refused(uint64_t number, bool odd, size_t missing)
{
    const bool worse = odd || missing > 0;
    switch (number) {
    case NOT_WELL_FORMED:
        came[worse ? DAMAGED_MORE_WRONG : DAMAGED]++;
        return;
    case NO_OUTLINE:
        came[worse ? UNFOUNDED_MORE_WRONG : UNFOUNDED]++;
        return;
    case NO_RING:
        came[missing > 0 ? ODD_MORE_WRONG : ODD]++;
        return;
    default:
        came[missing > 1 ? TOO_SHORT : SHORT_BY_ONE]++;
    }
}

void answers_count(size_t points_length, size_t answers_length, const struct plain_answer *whole, bool counted)
{
    const size_t many = points_length / 2, needed = LAUNCHRAMP_ANSWER_LENGTH * many;
    if (whole->kind == LAUNCHRAMP_REFUSED) {
        count_refused(whole->values[0], points_length % 2 == 1, answers_length < needed ? needed - answers_length : 0);
        return;
    }
    sizes[counted][many <= ANSWERS_SMALL_BATCH ? many : ANSWERS_SMALL_BATCH + 1]++;
    came[answers_length == needed ? EXACT_ROOM : MORE_ROOM]++;
    came[FULL_BETWEEN] += full_between(many);
    for (size_t i = 0; i < many; i++)
        came[sort_of(&answers_got.each[i])]++;
}

static bool sizes_enough(const char *name, const uint64_t *sizes)
{
    const uint64_t larger = sizes[ANSWERS_SMALL_BATCH + 1];
    uint64_t fewest = sizes[0];
    for (size_t many = 1; many <= ANSWERS_SMALL_BATCH; many++)
        fewest = sizes[many] < fewest ? sizes[many] : fewest;
    bool enough = fewest >= FEWEST_OF_A_SIZE && larger >= FEWEST_LARGER;
    printf("  %s, of the size that came least often %" PRIu64 "; larger %" PRIu64 "%s\n", name, fewest, larger, enough ? "" : " (TOO FEW)");
    return enough;
}

bool answers_enough(void)
{
    printf("batches; at least %d of each size up to %d, and %d larger:\n", FEWEST_OF_A_SIZE, ANSWERS_SMALL_BATCH, FEWEST_LARGER);
    bool all = sizes_enough("not counted", sizes[false]);
    all = sizes_enough("counted", sizes[true]) && all;
    for (enum sort s = AT_ONE_VERTEX; s < SORTS; s++) {
        bool enough = came[s] >= sorts[s].fewest;
        printf("  %-44s %9" PRIu64 ", at least %" PRIu64 "%s\n", sorts[s].name, came[s], sorts[s].fewest, enough ? "" : " (TOO FEW)");
        all = all && enough;
    }
    return all;
}
