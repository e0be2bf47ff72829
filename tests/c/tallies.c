/* What tallies.h promises. */
#include "tallies.h"
#include "lives.h"
#include "makes.h"

#include <inttypes.h>
#include <math.h>
#include <stdio.h>
#include <stdlib.h>
#include <string.h>

#define MOST UINT32_MAX

static struct twice town;

/* How often each count was raised to its limit and was refused there, and how many refused reports left it alone. */
static uint64_t raised[LAUNCHRAMP_COUNTS], full[LAUNCHRAMP_COUNTS], passed[LAUNCHRAMP_COUNTS];

/* A report on the grid, its answer, and the count that it raises. */
struct sort {
    int32_t x, y;
    struct plain_answer answer;
    size_t count;
};

static void fail(size_t count, const char *why)
{
    printf("count %zu of the tally: %s\n", count, why);
    exit(1);
}

/* ---- the registers ---- */

static void change(struct call call)
{
    if (both_ask(&town, &call).kind != LAUNCHRAMP_DONE)
        fail(0, "its register was not made");
}

/* A square that is district d, split so that a triangle on its lower side keeps d and what is left takes the lowest number. The triangle
 * sticks out above, where both districts wind. */
static void make_square(size_t d)
{
    static const int32_t square[] = {0, 0, 4, 0, 4, 4, 0, 4}, tip[] = {2, 9};
    const struct call found = {.which = FOUND, .list = square, .length = LENGTH(square)};
    const struct call split = {.which = SPLIT, .number = {d, 0, 1}, .list = tip, .length = LENGTH(tip)};
    lives_start(&town);
    change(found);
    town.lists.runs[SIZES] = 0;
    town.lists.runs[PLACES + d] = 0;
    town.lists.runs[SIZES + d] = 4;
    both_reread(&town);
    town.by_calls = true;
    change(split);
}

/* Strips side by side, 4 wide: district d holds the points with x from 4 d to 4 d + 4, and all numbers are in use. */
static void make_strips(void)
{
    static int32_t ring[4 * (PLAIN_NUMBERS + 1)];
    const struct call found = {.which = FOUND, .list = ring, .length = LENGTH(ring)};
    const size_t corners = LENGTH(ring) / 2;
    for (size_t k = 0; k <= PLAIN_NUMBERS; k++) {
        ring[2 * k] = ring[2 * (corners - 1 - k)] = 4 * (int32_t)k;
        ring[2 * k + 1] = 0;
        ring[2 * (corners - 1 - k) + 1] = 4;
    }
    lives_start(&town);
    change(found);
    for (size_t d = 0; d + 1 < PLAIN_NUMBERS; d++) {
        const struct call split = {.which = SPLIT, .number = {d, 2 * (PLAIN_NUMBERS - d), 1}, .list = made_no_list};
        change(split);
    }
}

/* ---- at the limits ---- */

/* The count that is asked about holds n, and the others hold MOST or numbers of their own. */
static void hold(size_t count, uint32_t n, bool others_full)
{
    for (size_t i = 0; i < LENGTH(town.counts); i++)
        town.counts[i] = others_full ? MOST : 7 + 1000 * (uint32_t)i;
    town.counts[count] = n;
    both_retally(&town);
}

/* Asks, and expects the answer, n in the count, and the others as they were. */
static void expect(struct call call, struct plain_answer expected, size_t count, uint32_t n)
{
    uint32_t after[LENGTH(town.counts)];
    memcpy(after, town.counts, sizeof after);
    after[count] = n;
    if (!both_same(both_ask(&town, &call), expected))
        fail(count, "another answer");
    if (memcmp(after, town.counts, sizeof after) != 0)
        fail(count, "the tally afterwards");
}

static const struct plain_answer count_full = {LAUNCHRAMP_REFUSED, {COUNT_FULL}};

static void reach_limit(struct call call, struct sort sort, bool others_full)
{
    hold(sort.count, MOST - 1, others_full);
    expect(call, sort.answer, sort.count, MOST);
    raised[sort.count]++;
    expect(call, count_full, sort.count, MOST);
    expect(call, count_full, sort.count, MOST);
    full[sort.count]++;
    hold(sort.count, 0, others_full);
    expect(call, sort.answer, sort.count, 1);
}

/* A report beyond the grid and one that is not finite, with the count at n. */
static void pass(size_t count, uint32_t n)
{
    static const struct plain_answer beyond = {LAUNCHRAMP_REFUSED, {BEYOND_GRID}}, not_finite = {LAUNCHRAMP_REFUSED, {NOT_FINITE}};
    struct call on_grid = {.which = ASSIGN_COUNTED, .list = made_no_list, .x = PLAIN_LIMIT + 1, .y = 2};
    struct call fix = {.which = ASSIGN_FIX_COUNTED, .list = made_no_list, .easting = made_metres(PLAIN_LIMIT + 1), .northing = 0.002};
    hold(count, n, false);
    expect(on_grid, beyond, count, n);
    expect(fix, beyond, count, n);
    fix.easting = NAN;
    expect(fix, not_finite, count, n);
    passed[count]++;
}

static void ask_sort(struct sort sort)
{
    struct call call = {.which = ASSIGN_COUNTED, .list = made_no_list, .x = sort.x, .y = sort.y};
    call.easting = made_metres(sort.x);
    call.northing = made_metres(sort.y);
    for (int others_full = 0; others_full < 2; others_full++) {
        call.which = ASSIGN_COUNTED;
        reach_limit(call, sort, others_full);
        call.which = ASSIGN_FIX_COUNTED;
        reach_limit(call, sort, others_full);
    }
    pass(sort.count, MOST - 1);
    pass(sort.count, MOST);
}

/* On the ring of district d, at its vertex or on its edge i alone. */
static struct plain_answer on_border(size_t d, uint32_t on, size_t i)
{
    struct plain_answer answer = {LAUNCHRAMP_BORDER, {d}};
    answer.values[LAUNCHRAMP_VALUE_ON] = on;
    answer.values[LAUNCHRAMP_VALUE_LOWEST] = answer.values[LAUNCHRAMP_VALUE_HIGHEST] = i;
    return answer;
}

/* In the triangle alone, at a corner of both districts, away from both, in both. The corner is the triangle's vertex 0 and the other
 * district's vertex 3. */
static void ask_square(size_t d)
{
    const struct sort sorts[] = {
        {2, 2, {LAUNCHRAMP_ONE, {d}}, d},
        {0, 0, on_border(0, LAUNCHRAMP_VERTEX, d == 0 ? 0 : 3), LAUNCHRAMP_COUNT_BORDER},
        {9, 9, {LAUNCHRAMP_NONE, {0}}, LAUNCHRAMP_COUNT_NONE},
        {2, 6, {LAUNCHRAMP_SEVERAL, {0, 2}}, LAUNCHRAMP_COUNT_SEVERAL},
    };
    make_square(d);
    for (size_t i = 0; i < LENGTH(sorts); i++)
        ask_sort(sorts[i]);
}

/* A strip's edge 1 goes down its left side and its edge 3 up its right one; the last strip, of which only the inside is asked, begins elsewhere. */
static void ask_strips(void)
{
    make_strips();
    for (size_t d = 0; d < PLAIN_NUMBERS; d++) {
        const int32_t x = 4 * (int32_t)d;
        const struct plain_answer left = d == 0 ? on_border(0, LAUNCHRAMP_EDGE, 1) : on_border(d - 1, LAUNCHRAMP_EDGE, 3);
        const struct sort one = {x + 2, 2, {LAUNCHRAMP_ONE, {d}}, d};
        const struct sort border = {x, 2, left, LAUNCHRAMP_COUNT_BORDER};
        ask_sort(one);
        ask_sort(border);
    }
}

void tallies_at_their_limits(void)
{
    uint64_t before = both_calls, raises = 0, refusals = 0, passes = 0;
    both_about = "each count at its limit";
    for (size_t d = 0; d < PLAIN_NUMBERS; d++)
        ask_square(d);
    ask_strips();
    for (size_t i = 0; i < LAUNCHRAMP_COUNTS; i++) {
        if (raised[i] == 0 || full[i] == 0 || passed[i] == 0)
            fail(i, "never asked at its limit");
        raises += raised[i];
        refusals += full[i];
        passes += passed[i];
    }
    printf("%-44s %9" PRIu64 " calls, 0 differ; %d counts, raised to the limit %" PRIu64 " times, full %" PRIu64 ", refused reports %" PRIu64 "\n",
           both_about, both_calls - before, LAUNCHRAMP_COUNTS, raises, refusals, 3 * passes);
}

/* ---- over a life ---- */

/* Raises by hand the count that an answer belongs to; false for a refusal. */
static bool raise_by_hand(uint32_t *counts, struct plain_answer answer)
{
    switch (answer.kind) {
    case LAUNCHRAMP_REFUSED:
        return false;
    case LAUNCHRAMP_ONE:
        counts[answer.values[0]]++;
        return true;
    default:
        counts[answer.kind == LAUNCHRAMP_BORDER ? LAUNCHRAMP_COUNT_BORDER
               : answer.kind == LAUNCHRAMP_NONE ? LAUNCHRAMP_COUNT_NONE
                                                : LAUNCHRAMP_COUNT_SEVERAL]++;
        return true;
    }
}

void tallies_of_a_life(void)
{
    static const enum which calls[] = {ASSIGN_COUNTED, ASSIGN_FIX_COUNTED, ASSIGN_COUNTED, ASSIGN_FIX_COUNTED, SPLIT, MERGE};
    struct land land = made_land();
    uint32_t counts[LAUNCHRAMP_COUNTS] = {0};
    uint64_t accepted = 0, sum = 0;
    makes_register(&town, (enum make)(FOUNDED + below(MAKES - FOUNDED)), land);
    memset(town.counts, 0, sizeof town.counts);
    both_retally(&town);
    for (int t = 0; t < 100; t++) {
        enum which which = calls[below(LENGTH(calls))];
        struct plain_answer answer = lives_ask(&town, which, land);
        if (which != SPLIT && which != MERGE)
            accepted += raise_by_hand(counts, answer);
    }
    for (size_t i = 0; i < LAUNCHRAMP_COUNTS; i++) {
        sum += town.counts[i];
        if (town.counts[i] != counts[i])
            fail(i, "another number of reports than were answered so");
    }
    if (sum != accepted)
        fail(0, "the counts add up to another number than that of the reports accepted");
}
