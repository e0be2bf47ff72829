/* What damage.h promises. Each kind leaves all else as sound as it can be, so that only the test of that one thing can tell. Which run, which
 * place and how much are drawn. */
#include "damage.h"
#include "harms.h"
#include "lives.h"
#include "makes.h"

#include <inttypes.h>
#include <stdio.h>
#include <stdlib.h>

#define HALF_WORD 0x80000000u

/* ---- the runs of a good register ---- */

static size_t first_run(const struct lists *l)
{
    size_t d = 0;
    while (l->runs[SIZES + d] == 0 || l->runs[PLACES + d] > 0)
        d++;
    return d;
}

static size_t last_run(const struct lists *l, const struct plain_register *g)
{
    size_t d = 0;
    while (l->runs[SIZES + d] == 0 || l->runs[PLACES + d] + l->runs[SIZES + d] != plain_total(g))
        d++;
    return d;
}

/* A number that is unused, or PLAIN_NUMBERS where all are used. */
static size_t some_unused(const struct plain_register *g)
{
    size_t d = below(PLAIN_NUMBERS);
    for (size_t t = 0; t < PLAIN_NUMBERS; t++)
        if (g->district[(d + t) % PLAIN_NUMBERS].n == 0)
            return (d + t) % PLAIN_NUMBERS;
    return PLAIN_NUMBERS;
}

/* ---- wrong lengths and sizes ---- */

static size_t wrong_length(size_t right)
{
    const size_t wrong[] = {0, 1, right / 2, right - 2, right - 1, right + 1, right + 2, right + LISTS_SPARE};
    return wrong[below(LENGTH(wrong))];
}

static void column_length(struct lists *l, const struct plain_register *g)
{
    (void)g;
    l->column_length[below(COLUMNS)] = wrong_length(LAUNCHRAMP_COLUMN_LENGTH);
}

/* Of the outline or of the store. */
static void same_lengths(struct lists *l, const struct plain_register *g)
{
    const bool outline = once_in(2);
    const size_t wrong = wrong_length(LAUNCHRAMP_COLUMN_LENGTH);
    (void)g;
    l->column_length[outline ? OUTLINE_X : STORE_X] = wrong;
    l->column_length[outline ? OUTLINE_Y : STORE_Y] = wrong;
}

/* By as much. */
static void uneven_lengths(struct lists *l, const struct plain_register *g)
{
    const size_t shorter = below(COLUMNS), longer = (shorter + 1 + below(COLUMNS - 1)) % COLUMNS, by = 1 + below(LISTS_SPARE);
    (void)g;
    l->column_length[shorter] -= by;
    l->column_length[longer] += by;
}

static void runs_length(struct lists *l, const struct plain_register *g)
{
    (void)g;
    l->runs_length = wrong_length(LAUNCHRAMP_RUNS_LENGTH);
}

static uint32_t wrong_size(void)
{
    static const uint32_t sizes[] = {1, 2, PLAIN_MOST_VERTICES + 1};
    return sizes[below(LENGTH(sizes))];
}

static void outline_size(struct lists *l, const struct plain_register *g)
{
    (void)g;
    l->runs[0] = wrong_size();
}

/* Of the last run, or of a new one behind it: neither a gap nor an overlap arises. */
static void district_size(struct lists *l, const struct plain_register *g)
{
    size_t d = once_in(2) ? some_unused(g) : PLAIN_NUMBERS;
    if (d == PLAIN_NUMBERS)
        d = last_run(l, g);
    else
        l->runs[PLACES + d] = (uint32_t)plain_total(g);
    l->runs[SIZES + d] = wrong_size();
}

static void no_outline(struct lists *l, const struct plain_register *g)
{
    (void)g;
    l->runs[0] = 0;
}

/* The last run has up to three vertices more than there is room for; the other runs leave it no more than 2,048. */
static void too_many(struct lists *l, const struct plain_register *g)
{
    l->runs[SIZES + last_run(l, g)] += (uint32_t)(PLAIN_MOST_VERTICES - plain_total(g) + 1 + below(3));
}

/* ---- wrong places ---- */

static void overlap(struct lists *l, const struct plain_register *g)
{
    size_t first = first_run(l), last = last_run(l, g), d = made_district(g), unused = some_unused(g);
    switch (below(4)) {
    case 0:
        l->runs[PLACES + last] = (uint32_t)below(l->runs[PLACES + last]);
        return;
    case 1:
        l->runs[SIZES + first] += 1 + (uint32_t)below(3);
        return;
    case 2:
        --l->runs[SIZES + last];
        ++l->runs[SIZES + first];
        return;
    default:
        if (unused == PLAIN_NUMBERS) {
            l->runs[PLACES + last] = 0;
            return;
        }
        l->runs[PLACES + unused] = l->runs[PLACES + d];
        l->runs[SIZES + unused] = l->runs[SIZES + d];
    }
}

static void gap(struct lists *l, const struct plain_register *g)
{
    size_t first = first_run(l), last = last_run(l, g);
    switch (below(5)) {
    case 0:
        l->runs[PLACES + last] += 1 + (uint32_t)below(4);
        return;
    case 1:
        l->runs[PLACES + made_district(g)] += 1 + (uint32_t)below(4);
        return;
    case 2:
        l->runs[SIZES + first] = 0;
        return;
    case 3:
        for (size_t d = 0; d < PLAIN_NUMBERS; d++)
            l->runs[PLACES + d] += 1;
        return;
    default:
        --l->runs[SIZES + first];
        ++l->runs[SIZES + last];
    }
}

/* It ends one place behind the store, anywhere behind it, or lies where it lay but a whole store farther. */
static void beyond_store(struct lists *l, const struct plain_register *g)
{
    size_t d = made_district(g), least = PLAIN_MOST_VERTICES + 1 - l->runs[SIZES + d];
    const size_t places[] = {least, least + below(PLAIN_MOST_VERTICES), l->runs[PLACES + d] + PLAIN_MOST_VERTICES};
    l->runs[PLACES + d] = (uint32_t)places[below(LENGTH(places))];
}

/* Numbers whose sum or double is a good one in 32 bits. */
static void huge(struct lists *l, const struct plain_register *g)
{
    size_t d = made_district(g);
    switch (below(6)) {
    case 0:
        l->runs[PLACES + d] = UINT32_MAX - (uint32_t)below(4);
        return;
    case 1:
        l->runs[PLACES + d] = 0u - l->runs[SIZES + d];
        return;
    case 2:
        l->runs[PLACES + d] += HALF_WORD;
        return;
    case 3:
        l->runs[SIZES + d] = UINT32_MAX - (uint32_t)below(4);
        return;
    case 4:
        l->runs[0] = UINT32_MAX - (uint32_t)below(4);
        return;
    default:
        l->runs[0] += HALF_WORD;
    }
}

/* Two sizes so large that 32 bits see the total that was there; the numbers may both be unused. */
static void huge_pair(struct lists *l, const struct plain_register *g)
{
    size_t d = some_unused(g), e = (d + 1) % PLAIN_NUMBERS;
    if (once_in(2) || d == PLAIN_NUMBERS || g->district[e].n > 0) {
        d = first_run(l);
        e = last_run(l, g);
    }
    l->runs[SIZES + d] += HALF_WORD;
    l->runs[SIZES + e] += HALF_WORD;
}

/* ---- coordinates ---- */

/* The first, the last or any of so many. */
static size_t some_place(size_t many)
{
    return once_in(3) ? 0 : once_in(2) ? many - 1 : below(many);
}

/* A coordinate in use, of one of two columns. */
static int32_t *some_coordinate(struct lists *l, const struct plain_register *g, enum column x, enum column y)
{
    enum column c = once_in(2) ? x : y;
    return &l->column[c][some_place(plain_used(g, c))];
}

static void outline_beyond(struct lists *l, const struct plain_register *g)
{
    *some_coordinate(l, g, OUTLINE_X, OUTLINE_Y) = made_beyond();
}

static void store_beyond(struct lists *l, const struct plain_register *g)
{
    *some_coordinate(l, g, STORE_X, STORE_Y) = made_beyond();
}

/* ---- nothing wrong ---- */

static void longest_outline(struct lists *l, const struct plain_register *g)
{
    (void)g;
    l->runs[0] = PLAIN_MOST_VERTICES;
}

static void shortest_outline(struct lists *l, const struct plain_register *g)
{
    (void)g;
    l->runs[0] = PLAIN_FEWEST_VERTICES;
}

static void shortest_ring(struct lists *l, const struct plain_register *g)
{
    l->runs[SIZES + last_run(l, g)] = PLAIN_FEWEST_VERTICES;
}

static void last_ring_gone(struct lists *l, const struct plain_register *g)
{
    l->runs[SIZES + last_run(l, g)] = 0;
}

static void store_filled(struct lists *l, const struct plain_register *g)
{
    l->runs[SIZES + last_run(l, g)] += (uint32_t)(PLAIN_MOST_VERTICES - plain_total(g));
}

static void outline_at_limit(struct lists *l, const struct plain_register *g)
{
    *some_coordinate(l, g, OUTLINE_X, OUTLINE_Y) = once_in(2) ? PLAIN_LIMIT : -PLAIN_LIMIT;
}

static void store_at_limit(struct lists *l, const struct plain_register *g)
{
    *some_coordinate(l, g, STORE_X, STORE_Y) = once_in(2) ? PLAIN_LIMIT : -PLAIN_LIMIT;
}

/* ---- anything ---- */

static uint32_t odd_count(void)
{
    const uint32_t counts[] = {0, 1, 2, 3, 2046, 2047, 2048, 2049, HALF_WORD, UINT32_MAX, (uint32_t)below(40)};
    return counts[below(LENGTH(counts))];
}

static void some_number(struct lists *l, const struct plain_register *g)
{
    static const uint32_t steps[] = {1, UINT32_MAX, HALF_WORD};
    size_t d = made_district(g);
    const size_t at[] = {0, PLACES + d, SIZES + d, below(LAUNCHRAMP_RUNS_LENGTH)};
    uint32_t *number = &l->runs[at[below(LENGTH(at))]];
    *number = once_in(2) ? odd_count() : *number + steps[below(LENGTH(steps))];
}

static void exchanged(struct lists *l, const struct plain_register *g)
{
    size_t one = (once_in(2) ? PLACES : SIZES) + made_district(g), other = (once_in(2) ? PLACES : SIZES) + made_district(g);
    uint32_t kept = l->runs[one];
    l->runs[one] = l->runs[other];
    l->runs[other] = kept;
}

/* ---- every kind ---- */

/* What is known of the lists afterwards. EITHER: plain.h's reading of them tells. */
enum known { DAMAGED, SOUND, EITHER };

static const struct kind {
    const char *name;
    void (*done)(struct lists *l, const struct plain_register *g);
    /* The makes on which it does what is known of it. */
    unsigned makes;
    enum known known;
} kinds[] = {
    {"a column of a wrong length", column_length, EVERY_MAKE, DAMAGED},
    {"x and y of the same wrong length", same_lengths, EVERY_MAKE, DAMAGED},
    {"a column too short, another too long", uneven_lengths, EVERY_MAKE, DAMAGED},
    {"a list of runs of a wrong length", runs_length, EVERY_MAKE, DAMAGED},
    {"an outline of 1, 2 or 2,049 vertices", outline_size, EVERY_MAKE, DAMAGED},
    {"a district of 1, 2 or 2,049 vertices", district_size, WITH_DISTRICTS, DAMAGED},
    {"districts beside no outline", no_outline, WITH_DISTRICTS, DAMAGED},
    {"more than 2,048 vertices of districts", too_many, WITH_TWO, DAMAGED},
    {"runs that overlap", overlap, WITH_TWO, DAMAGED},
    {"a gap between or before runs", gap, WITH_TWO, DAMAGED},
    {"a run beyond the store", beyond_store, WITH_DISTRICTS, DAMAGED},
    {"a first place or size near 2^32 or 2^31", huge, WITH_DISTRICTS, DAMAGED},
    {"two sizes that are 2^32 too large", huge_pair, WITH_TWO, DAMAGED},
    {"an outline beyond the grid", outline_beyond, WITH_DISTRICTS, DAMAGED},
    {"a district beyond the grid", store_beyond, WITH_DISTRICTS, DAMAGED},
    {"no damage: an outline of 2,048 vertices", longest_outline, WITH_DISTRICTS, SOUND},
    {"no damage: an outline of 3 vertices", shortest_outline, WITH_DISTRICTS, SOUND},
    {"no damage: a district of 3 vertices", shortest_ring, WITH_DISTRICTS, SOUND},
    {"no damage: the last run's number unused", last_ring_gone, WITH_DISTRICTS, SOUND},
    {"no damage: the store full", store_filled, WITH_DISTRICTS, SOUND},
    {"no damage: an outline at the grid's limit", outline_at_limit, WITH_DISTRICTS, SOUND},
    {"no damage: a district at the grid's limit", store_at_limit, WITH_DISTRICTS, SOUND},
    {"some number of the runs is another", some_number, EVERY_MAKE, EITHER},
    {"two numbers of the runs exchanged", exchanged, WITH_DISTRICTS, EITHER},
};

/* How often each good register is damaged. */
#define DRAWS 5

/* What came of one kind. */
struct outcome {
    uint64_t registers, damaged, calls, refused;
};

static struct twice good, harmed;

static void fail(const struct kind *kind, const char *make, const char *why)
{
    printf("%s, %s: %s\n", kind->name, make, why);
    exit(1);
}

/* Every call; the arguments are made for the register that it was. */
static void ask_all(const struct kind *kind, enum make make, struct land land, struct outcome *came)
{
    for (enum which which = WELL_FORMED; which < CALLS; which++) {
        struct call call = made_call(which, &good.rows, land);
        struct plain_answer answer = both_ask(&harmed, &call);
        bool refused = answer.kind == LAUNCHRAMP_REFUSED && answer.values[0] == NOT_WELL_FORMED;
        if (kind->known != EITHER && refused != (kind->known == DAMAGED))
            fail(kind, make_names[make], refused ? "a good register was refused by 1" : "a damaged register was taken");
        came->calls++;
        came->refused += refused;
    }
}

static void damage_one(const struct kind *kind, enum make make, struct land land, struct outcome *came)
{
    both_copy(&harmed.lists, &good.lists);
    kind->done(&harmed.lists, &good.rows);
    both_reread(&harmed);
    lives_make_tally(&harmed);
    if (kind->known != EITHER && harmed.damaged != (kind->known == DAMAGED))
        fail(kind, make_names[make], "plain C takes it otherwise");
    came->registers++;
    came->damaged += harmed.damaged;
    ask_all(kind, make, land, came);
    if (harmed.damaged)
        harms_count(&harmed, &good);
}

static void damage_makes(const struct kind *kind, int times, struct outcome *came)
{
    for (enum make make = FRESH; make < MAKES; make++)
        for (int t = 0; t < times && kind->makes >> make & 1; t++) {
            struct land land = made_land();
            makes_register(&good, make, land);
            for (int draw = 0; draw < DRAWS; draw++)
                damage_one(kind, make, land, came);
        }
}

void damage_registers(int times)
{
    for (const struct kind *kind = kinds; kind < kinds + LENGTH(kinds); kind++) {
        struct outcome came = {0, 0, 0, 0};
        both_about = kind->name;
        damage_makes(kind, times, &came);
        if (came.registers == 0)
            fail(kind, "all makes", "never asked");
        if (kind->known == EITHER && (came.damaged == 0 || came.damaged == came.registers))
            fail(kind, "all makes", "always or never damage");
        printf("%-44s %9" PRIu64 " calls, 0 differ; %" PRIu64 " registers, refused by 1: %" PRIu64 " calls\n", kind->name, came.calls,
               came.registers, came.refused);
        fflush(stdout);
    }
}
