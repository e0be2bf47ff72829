/* What makes.h promises. */
#include "makes.h"
#include "lives.h"

#include <stdio.h>
#include <stdlib.h>

const char *const make_names[MAKES] = {"fresh",          "founded",         "two districts", "many districts", "all numbers in use",
                                       "the store full", "the longest outline"};

/* What each make has: districts, vertices of all districts, vertices of the outline. */
static const struct {
    size_t fewest, most, fewest_vertices, fewest_of_outline;
} shapes[MAKES] = {
    [FRESH] = {0, 0, 0, 0},
    [FOUNDED] = {1, 1, 3, 3},
    [TWO_DISTRICTS] = {2, 2, 6, 3},
    [MANY_DISTRICTS] = {5, 40, 15, 3},
    [ALL_NUMBERS] = {PLAIN_NUMBERS, PLAIN_NUMBERS, 3 * PLAIN_NUMBERS, 3},
    [FULL_STORE] = {2, 9, PLAIN_MOST_VERTICES, 3},
    [LONGEST_OUTLINE] = {2, 9, 6, PLAIN_MOST_VERTICES},
};

static size_t districts_of(const struct plain_register *g)
{
    size_t many = 0;
    for (size_t d = 0; d < PLAIN_NUMBERS; d++)
        many += g->district[d].n > 0;
    return many;
}

/* With so many districts or more. */
static void split_until(struct twice *t, size_t districts, struct land land)
{
    while (districts_of(&t->rows) < districts)
        lives_ask(t, SPLIT, land);
}

/* The ring or the path of the next call. */
static struct made_list list;

static void found(struct twice *t, size_t vertices, struct land land)
{
    struct call call = {.which = FOUND, .list = list.at, .length = 2 * vertices};
    made_list_of(&list, vertices, land);
    both_ask(t, &call);
}

/* A last split, along a path of as many points as there is room for; the total is even. */
static void fill(struct twice *t, struct land land)
{
    size_t d = made_district(&t->rows), n = t->rows.district[d].n, i = below(n);
    struct call call = {.which = SPLIT, .number = {d, i, (i + 1 + below(n - 1)) % n}, .list = list.at};
    made_list_of(&list, (PLAIN_MOST_VERTICES - plain_total(&t->rows)) / 2 - 1, land);
    call.length = list.length;
    both_ask(t, &call);
}

/* A district's run goes to any number, and that number's run, if it has one, to the district's. */
static void exchange_runs(struct twice *t)
{
    uint32_t *runs = t->lists.runs;
    size_t d = made_district(&t->rows), e = below(PLAIN_NUMBERS);
    uint32_t place = runs[PLACES + d], size = runs[SIZES + d];
    runs[PLACES + d] = runs[PLACES + e];
    runs[SIZES + d] = runs[SIZES + e];
    runs[PLACES + e] = place;
    runs[SIZES + e] = size;
    both_reread(t);
    t->by_calls = true;
}

static void lengthen_outline(struct twice *t, struct land land)
{
    struct lists *l = &t->lists;
    for (size_t i = t->rows.outline.n; i < LAUNCHRAMP_COLUMN_LENGTH; i++) {
        l->column[OUTLINE_X][i] = made_coordinate(land);
        l->column[OUTLINE_Y][i] = made_coordinate(land);
    }
    l->runs[0] = PLAIN_MOST_VERTICES;
    both_reread(t);
}

static void require(bool good, enum make make)
{
    if (good)
        return;
    printf("a register of this make did not come out so: %s\n", make_names[make]);
    exit(1);
}

void makes_register(struct twice *t, enum make make, struct land land)
{
    /* Few enough that no path fills the store before its time; and even where it is to be full, since every split adds an even number. */
    size_t vertices = 2 * (2 + below(make == FULL_STORE && once_in(2) ? 700 : 6));
    if (make != FULL_STORE)
        vertices -= below(2);
    lives_start(t);
    if (make != FRESH) {
        found(t, vertices, land);
        split_until(t, shapes[make].fewest + below(1 + (shapes[make].most - shapes[make].fewest) / 2), land);
        for (int k = 0; k < 3; k++)
            exchange_runs(t);
    }
    if (make == FULL_STORE)
        fill(t, land);
    if (make == LONGEST_OUTLINE)
        lengthen_outline(t, land);
    made_forget();
    size_t districts = districts_of(&t->rows);
    require(!t->damaged && shapes[make].fewest <= districts && districts <= shapes[make].most &&
                shapes[make].fewest_vertices <= plain_total(&t->rows) && shapes[make].fewest_of_outline <= t->rows.outline.n,
            make);
}
