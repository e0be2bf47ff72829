/* What lives.h promises. */
#include "lives.h"
#include "litter.h"

#include <inttypes.h>
#include <stdio.h>
#include <stdlib.h>
#include <string.h>

static struct twice life;

void lives_make_tally(struct twice *t)
{
    static const uint32_t counts[] = {0, 1, UINT32_MAX - 1, UINT32_MAX};
    for (size_t i = 0; i < LENGTH(t->counts); i++)
        t->counts[i] = once_in(8) ? (uint32_t)chance_next(&made_chance) : counts[below(LENGTH(counts))];
    both_retally(t);
}

void lives_start(struct twice *t)
{
    memset(&t->lists, 0, sizeof t->lists);
    for (enum column c = OUTLINE_X; c < COLUMNS; c++)
        t->lists.column_length[c] = LAUNCHRAMP_COLUMN_LENGTH;
    t->lists.runs_length = LAUNCHRAMP_RUNS_LENGTH;
    both_reread(t);
    t->by_calls = true;
    lives_make_tally(t);
    made_forget();
}

struct plain_answer lives_ask(struct twice *t, enum which which, struct land land)
{
    struct call call = made_call(which, &t->rows, land);
    size_t n = made_size_of(&t->rows, call.number[0]);
    struct plain_answer answer = both_ask(t, &call);
    made_remember(&call, n, answer);
    return answer;
}

/* Every call before there is an outline, then foundings until one is accepted. */
static void begin(struct land land, size_t vertices)
{
    lives_start(&life);
    if (once_in(2))
        litter_some(&life);
    for (enum which which = WELL_FORMED; which < CALLS; which++)
        lives_ask(&life, which, land);
    while (life.rows.outline.n == 0) {
        struct call call = made_founding(land, vertices);
        both_ask(&life, &call);
    }
}

/* So many steps, of ten of which `splits` are splits and `merges` are merges. */
static void live(struct land land, int steps, size_t splits, size_t merges)
{
    static const enum which others[] = {WELL_FORMED,    FOUND,      ASSIGN,             ASSIGN,     ASSIGN_COUNTED,
                                        ASSIGN_COUNTED, ASSIGN_FIX, ASSIGN_FIX_COUNTED, ASSIGN_ALL, ASSIGN_ALL_COUNTED};
    for (int t = 0; t < steps; t++) {
        size_t step = below(10);
        if (step < splits)
            lives_ask(&life, SPLIT, land);
        else if (step < splits + merges)
            lives_ask(&life, MERGE, land);
        else
            lives_ask(&life, others[below(LENGTH(others))], land);
        if (once_in(20))
            litter_some(&life);
        if (once_in(20))
            lives_make_tally(&life);
    }
}

static size_t few_vertices(void)
{
    return PLAIN_FEWEST_VERTICES + below(6);
}

void live_small(void)
{
    struct land land = made_land();
    begin(land, few_vertices());
    live(land, 100, 4, 3);
}

void live_with_all_numbers_in_use(void)
{
    struct land land = made_land();
    begin(land, few_vertices());
    live(land, 200, 8, 0);
    live(land, 50, 5, 2);
}

void live_with_a_full_store(void)
{
    struct land land = {1000, 2};
    begin(land, once_in(4) ? PLAIN_MOST_VERTICES : PLAIN_MOST_VERTICES - below(300));
    live(land, 60, 5, 2);
}

static void found_with_repeated_places(struct land land)
{
    static struct made_list ring;
    made_list_of(&ring, few_vertices(), land);
    switch (below(3)) {
    case 0:
        made_doubled_corner(&ring);
        break;
    case 1:
        made_spike(&ring, land);
        break;
    default:
        made_again(&ring, false);
    }
    struct call call = {.which = FOUND, .list = ring.at, .length = ring.length};
    both_ask(&life, &call);
}

/* By any of the calls that sort a report. */
static void report_from(struct plain_point r)
{
    static const enum which calls[] = {ASSIGN, ASSIGN_COUNTED, ASSIGN_FIX, ASSIGN_FIX_COUNTED};
    struct call call = {.which = calls[below(LENGTH(calls))], .list = made_no_list, .x = r.x, .y = r.y};
    call.easting = made_metres(r.x);
    call.northing = made_metres(r.y);
    both_ask(&life, &call);
}

static void report_all_round(const struct plain_ring *ring)
{
    for (size_t i = 0; i < ring->n; i++) {
        report_from(ring->at[i]);
        report_from(made_middle((const int32_t *)ring->at, 2 * ring->n, i));
    }
}

void live_with_repeated_places(void)
{
    const struct land land = {(int32_t)(1 + below(30)), 2};
    lives_start(&life);
    memset(life.counts, 0, sizeof life.counts);
    both_retally(&life);
    found_with_repeated_places(land);
    for (int t = 0; t < 10; t++) {
        report_all_round(&life.rows.district[made_district(&life.rows)]);
        lives_ask(&life, once_in(3) ? MERGE : SPLIT, land);
    }
}

static bool turned(const struct plain_ring *ring, const struct plain_ring *before, size_t from)
{
    if (ring->n != before->n)
        return false;
    for (size_t t = 0; t < ring->n; t++)
        if (memcmp(&ring->at[t], &before->at[(from + t) % ring->n], sizeof ring->at[t]) != 0)
            return false;
    return true;
}

/* Whether there was a split to take back. */
static bool split_and_take_back(struct land land)
{
    static struct plain_ring before;
    struct call split = made_call(SPLIT, &life.rows, land);
    size_t d = split.number[0], n = made_size_of(&life.rows, d);
    if (n > 0)
        before = life.rows.district[d];
    struct plain_answer made = both_ask(&life, &split);
    if (made.kind != LAUNCHRAMP_DONE)
        return false;
    struct call merge = made_merge_back(&split, n, made.values[0]);
    struct plain_answer kept = both_ask(&life, &merge);
    if (kept.kind == LAUNCHRAMP_DONE && kept.values[0] == d && turned(&life.rows.district[d], &before, split.number[1]))
        return true;
    printf("%s: call %" PRIu64 " did not take back the split before it\n", both_about, both_calls);
    exit(1);
}

void live_there_and_back(void)
{
    struct land land = made_land();
    begin(land, few_vertices());
    live(land, 20, 8, 0);
    for (int back = 0; back < 10;)
        if (split_and_take_back(land))
            back++;
        else
            lives_ask(&life, once_in(2) ? SPLIT : MERGE, land);
}

/* A report on the grid, and again in metres. */
static void ask_in_both_units(enum which on_grid, enum which as_fix, struct land land)
{
    struct call one = made_call(on_grid, &life.rows, land), other = one;
    other.which = as_fix;
    other.easting = made_metres(one.x);
    other.northing = made_metres(one.y);
    both_ask_alike(&life, &one, &other);
}

void report_in_metres(void)
{
    struct land land = made_land();
    begin(land, few_vertices());
    live(land, 20, 7, 1);
    memset(life.counts, 0, sizeof life.counts);
    both_retally(&life);
    for (int t = 0; t < 30; t++) {
        ask_in_both_units(ASSIGN, ASSIGN_FIX, land);
        ask_in_both_units(ASSIGN_COUNTED, ASSIGN_FIX_COUNTED, land);
        lives_ask(&life, ASSIGN_FIX, land);
    }
}
