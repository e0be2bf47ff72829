/* What batches.h promises. */
#include "batches.h"
#include "lives.h"
#include "makes.h"

static struct twice town;

/* The same points, not counted and then counted. */
static void ask_batch(struct land land, size_t many)
{
    struct call call = made_batch(ASSIGN_ALL, &town.rows, land, many);
    both_ask(&town, &call);
    call.which = ASSIGN_ALL_COUNTED;
    lives_make_tally(&town);
    both_ask(&town, &call);
}

static void ask_batches(struct land land)
{
    for (size_t many = 0; many <= ANSWERS_SMALL_BATCH; many++)
        ask_batch(land, many);
    ask_batch(land, ANSWERS_SMALL_BATCH + 1 + below(PLAIN_MOST_VERTICES - ANSWERS_SMALL_BATCH));
}

/* One axis of a small ring: n numbers about some place that is up to `reach` from 0. */
static void scatter_axis(int32_t *column, size_t n, int32_t reach)
{
    const int32_t size = 1 + (int32_t)below((size_t)reach / 8), middle = chance_between(&made_chance, size - reach, reach - size);
    for (size_t i = 0; i < n; i++)
        column[i] = middle + chance_between(&made_chance, -size, size);
}

/* Behind the rings that end at this place. Answers where it ends. */
static size_t scatter_ring(struct lists *l, size_t d, size_t place, int32_t reach)
{
    const size_t n = PLAIN_FEWEST_VERTICES + below(6);
    scatter_axis(&l->column[STORE_X][place], n, reach);
    scatter_axis(&l->column[STORE_Y][place], n, reach);
    l->runs[PLACES + d] = (uint32_t)place;
    l->runs[SIZES + d] = (uint32_t)n;
    return place + n;
}

/* About as many millimetres each way as make 64 in all, some more, and the whole grid. */
static const int32_t reaches[] = {30, 32, 34, 100, 5000, 40000000, PLAIN_LIMIT};

void batches_on_scattered_districts(void)
{
    const struct land land = {reaches[below(LENGTH(reaches))], 1};
    size_t place = 0;
    lives_start(&town);
    /* The outline is three times the point 0, 0: no report asks where it is. */
    town.lists.runs[0] = PLAIN_FEWEST_VERTICES;
    for (size_t d = 0; d < PLAIN_NUMBERS; d++)
        if (!once_in(4))
            place = scatter_ring(&town.lists, d, place, land.steps);
    both_reread(&town);
    ask_batches(land);
}

void batches_on_every_make(void)
{
    const struct land land = made_land();
    makes_register(&town, (enum make)(FOUNDED + below(MAKES - FOUNDED)), land);
    ask_batches(land);
}
