/* What litter.h promises. */
#include "litter.h"
#include "makes.h"

#include <inttypes.h>
#include <stdio.h>
#include <stdlib.h>
#include <string.h>

static int32_t no_coordinate(void)
{
    return once_in(2) ? made_beyond() : (int32_t)chance_next(&made_chance);
}

/* A first place in a ring, at the end of the rings or of the store, or far behind it. */
static uint32_t no_place(const struct plain_register *g)
{
    const size_t total = plain_total(g);
    const size_t places[] = {0,
                             below(total),
                             total,
                             PLAIN_MOST_VERTICES - 1,
                             PLAIN_MOST_VERTICES + below(4),
                             0x80000000u + below(2),
                             UINT32_MAX - below(4),
                             (uint32_t)chance_next(&made_chance)};
    return (uint32_t)places[below(LENGTH(places))];
}

static void litter_one_place(struct twice *t, enum column c)
{
    size_t free = plain_used(&t->rows, c);
    if (free < LAUNCHRAMP_COLUMN_LENGTH)
        t->lists.column[c][free + below(LAUNCHRAMP_COLUMN_LENGTH - free)] = no_coordinate();
}

void litter_some(struct twice *t)
{
    for (int i = 0; i < 20; i++) {
        for (enum column c = OUTLINE_X; c < COLUMNS; c++)
            litter_one_place(t, c);
        size_t d = below(PLAIN_NUMBERS);
        if (t->rows.district[d].n == 0)
            t->lists.runs[PLACES + d] = no_place(&t->rows);
    }
    both_remember(t);
}

/* ---- all of the free room, kind by kind ---- */

static void litter_column(struct twice *t, enum column c)
{
    for (size_t i = plain_used(&t->rows, c); i < LAUNCHRAMP_COLUMN_LENGTH; i++)
        t->lists.column[c][i] = no_coordinate();
}

static void litter_places(struct twice *t)
{
    for (size_t d = 0; d < PLAIN_NUMBERS; d++)
        if (t->rows.district[d].n == 0)
            t->lists.runs[PLACES + d] = no_place(&t->rows);
}

static const struct {
    const char *name;
    /* COLUMNS: none of them, but the runs. */
    enum column where;
    /* The makes that have such room. */
    unsigned makes;
} kinds[] = {
    {"litter behind the outline's x", OUTLINE_X, EVERY_MAKE & ~(1u << LONGEST_OUTLINE)},
    {"litter behind the outline's y", OUTLINE_Y, EVERY_MAKE & ~(1u << LONGEST_OUTLINE)},
    {"litter behind the rings' x", STORE_X, EVERY_MAKE & ~(1u << FULL_STORE)},
    {"litter behind the rings' y", STORE_Y, EVERY_MAKE & ~(1u << FULL_STORE)},
    {"litter in first places of unused numbers", COLUMNS, EVERY_MAKE & ~(1u << ALL_NUMBERS)},
};

static struct twice clean, littered;

static void fail(const char *kind, enum make make, const char *why)
{
    printf("%s, %s: %s\n", kind, make_names[make], why);
    exit(1);
}

static bool same_meaning(void)
{
    return plain_same(&clean.rows, &littered.lists);
}

/* Every call, to the clean register and to the littered one, which stay alike. */
static void ask_both(struct land land, const char *kind, enum make make)
{
    for (enum which which = WELL_FORMED; which < CALLS; which++) {
        struct call call = made_call(which, &clean.rows, land);
        struct plain_answer one = both_ask(&clean, &call), other = both_ask(&littered, &call);
        if (!both_same(one, other))
            fail(kind, make, "the litter changed an answer");
        if (!same_meaning())
            fail(kind, make, "the litter changed a ring");
    }
}

/* In how many numbers the lists are no longer alike. */
static size_t numbers_changed(void)
{
    const char *one = (const char *)&littered.lists, *other = (const char *)&clean.lists;
    const size_t number = sizeof littered.lists.runs[0];
    size_t many = 0;
    for (size_t at = 0; at < sizeof littered.lists; at += number)
        many += memcmp(one + at, other + at, number) != 0;
    return many;
}

/* Answers how many numbers were changed. */
static size_t litter_one(size_t kind, enum make make)
{
    struct land land = made_land();
    makes_register(&clean, make, land);
    both_copy(&littered.lists, &clean.lists);
    both_reread(&littered);
    littered.by_calls = clean.by_calls;
    if (kinds[kind].where == COLUMNS)
        litter_places(&littered);
    else
        litter_column(&littered, kinds[kind].where);
    both_remember(&littered);
    size_t changed = numbers_changed();
    memcpy(littered.counts, clean.counts, sizeof clean.counts);
    both_retally(&littered);
    if (!same_meaning())
        fail(kinds[kind].name, make, "this is no litter");
    for (int t = 0; t < 3; t++)
        ask_both(land, kinds[kind].name, make);
    return changed;
}

void litter_registers(int times)
{
    for (size_t kind = 0; kind < LENGTH(kinds); kind++) {
        uint64_t before = both_calls, changed = 0, registers = 0;
        both_about = kinds[kind].name;
        for (enum make make = FRESH; make < MAKES; make++)
            for (int t = 0; t < times && kinds[kind].makes >> make & 1; t++) {
                size_t more = litter_one(kind, make);
                if (more == 0)
                    fail(kinds[kind].name, make, "nothing was littered");
                changed += more;
                registers++;
            }
        if (registers == 0)
            fail(kinds[kind].name, FRESH, "never asked");
        printf("%-44s %9" PRIu64 " calls, 0 differ; %" PRIu64 " registers, %" PRIu64 " numbers littered\n", kinds[kind].name,
               both_calls - before, registers, changed);
    }
}
