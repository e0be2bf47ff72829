/* bench_assigning: how long launchramp_assign takes on the towns of towns.h, and launchramp_assign_all by batches of several sizes, beside
 * plain C (others.h) and GEOS (geos.h), on the same reports in the same run. All but GEOS are compiled with the same flags (tests/c/build).
 * Times are the best of several; all must give the same answers, GEOS off borders, or the status is 1. */
#include "geos.h"
#include "measuring.h"
#include "others.h"
#include "towns.h"

#include <inttypes.h>
#include <stdio.h>
#include <stdlib.h>
#include <string.h>

/* A town, and what the others make of it before the first report. */
struct settled {
    struct town town;
    struct rings rings;
    struct geos_town *geos;
};

/* ---- the forms ---- */

typedef uint32_t asking(const struct settled *settled, int32_t x, int32_t y, uint64_t *values);

static uint32_t counts[LAUNCHRAMP_COUNTS];

static uint32_t by_assign(const struct settled *settled, int32_t x, int32_t y, uint64_t *values)
{
    return launchramp_assign_in(&settled->town.held, x, y, values);
}

static uint32_t by_tally(const struct settled *settled, int32_t x, int32_t y, uint64_t *values)
{
    return launchramp_assign_counted_in(&settled->town.held, x, y, counts, values);
}

/* No answer to the report: this is what every call on a register asks first. */
static uint32_t by_well_formed(const struct settled *settled, int32_t x, int32_t y, uint64_t *values)
{
    (void)x, (void)y, (void)values;
    return launchramp_well_formed_in(&settled->town.held);
}

static uint32_t by_all_rings(const struct settled *settled, int32_t x, int32_t y, uint64_t *values)
{
    return all_rings(&settled->rings, x, y, values);
}

static uint32_t by_boxes_first(const struct settled *settled, int32_t x, int32_t y, uint64_t *values)
{
    return boxes_first(&settled->rings, x, y, values);
}

static uint32_t by_geos(const struct settled *settled, int32_t x, int32_t y, uint64_t *values)
{
    return geos_assign(settled->geos, x, y, values);
}

/* The last is not on every machine. */
enum form { ASSIGN, TALLY, BY_10, BY_100, BY_10000, WELL_FORMED, ALL_RINGS, BOXES_FIRST, GEOS, FORMS };

static const struct form_told {
    const char *name;
    /* One by one; null for a form that asks by batches of so many, a divisor of REPORTS. */
    asking *ask;
    size_t batch;
} forms[FORMS] = {
    [ASSIGN] = {"assign", .ask = by_assign},
    [TALLY] = {"with a tally", .ask = by_tally},
    [BY_10] = {"by 10", .batch = 10},
    [BY_100] = {"by 100", .batch = 100},
    [BY_10000] = {"by 10,000", .batch = 10000},
    [WELL_FORMED] = {"well_formed", .ask = by_well_formed},
    [ALL_RINGS] = {"all rings", .ask = by_all_rings},
    [BOXES_FIRST] = {"boxes first", .ask = by_boxes_first},
    [GEOS] = {"GEOS", .ask = by_geos},
};

static size_t forms_there(void)
{
    return geos_version() == NULL ? GEOS : FORMS;
}

/* ---- rounds of all reports ---- */

struct asked {
    const struct settled *settled;
    const struct form_told *form;
};

static uint64_t ask_one_by_one(const void *what)
{
    const struct asked *asked = what;
    const int32_t *reports = asked->settled->town.reports;
    uint64_t values[LAUNCHRAMP_VALUES] = {0}, sum = 0;
    for (size_t p = 0; p < REPORTS; p++)
        sum += asked->form->ask(asked->settled, reports[2 * p], reports[2 * p + 1], values) + values[0];
    return sum;
}

static launchramp_answer answers[REPORTS];

static uint64_t ask_batch(const launchramp_register *held, const int32_t *reports, launchramp_answer *told, size_t many)
{
    uint64_t values[LAUNCHRAMP_VALUES], sum = launchramp_assign_all_in(held, reports, 2 * many, told, many, values);
    for (size_t p = 0; p < many; p++)
        sum += told[p].kind + told[p].values[0];
    return sum;
}

static uint64_t ask_by_batches(const void *what)
{
    const struct asked *asked = what;
    const struct town *town = &asked->settled->town;
    const size_t batch = asked->form->batch;
    uint64_t sum = 0;
    for (size_t p = 0; p < REPORTS; p += batch)
        sum += ask_batch(&town->held, &town->reports[2 * p], &answers[p], batch);
    return sum;
}

/* ---- the same answers ---- */

/* A batch's answer to report p stands in the list of answers already. */
static uint32_t form_answer(const struct settled *settled, enum form form, size_t p, uint64_t *values)
{
    const int32_t *report = &settled->town.reports[2 * p];
    if (forms[form].ask != NULL)
        return forms[form].ask(settled, report[0], report[1], values);
    memcpy(values, answers[p].values, sizeof answers[p].values);
    return (uint32_t)answers[p].kind;
}

static void check_report(const struct settled *settled, enum form form, size_t p)
{
    const int32_t *report = &settled->town.reports[2 * p];
    uint64_t first[LAUNCHRAMP_VALUES], other[LAUNCHRAMP_VALUES];
    uint32_t kind = by_assign(settled, report[0], report[1], first);
    if (form == GEOS && kind == LAUNCHRAMP_BORDER)
        return;
    if (form_answer(settled, form, p, other) == kind && memcmp(first, other, sizeof first) == 0)
        return;
    printf("another answer than assign's: %s, %s, report %" PRId32 " %" PRId32 "\n", forms[form].name, settled->town.name, report[0],
           report[1]);
    exit(1);
}

static void check_form(const struct settled *settled, enum form form)
{
    const struct asked asked = {settled, &forms[form]};
    memset(answers, 0, sizeof answers);
    if (forms[form].ask == NULL)
        ask_by_batches(&asked);
    for (size_t p = 0; p < REPORTS; p++)
        check_report(settled, form, p);
}

/* ---- the table ---- */

static const struct {
    const char *name;
    enum form form, beside;
} ratios[] = {
    {"assign / all rings", ASSIGN, ALL_RINGS},
    {"by 10,000 / boxes first", BY_10000, BOXES_FIRST},
    {"by 100 / boxes first", BY_100, BOXES_FIRST},
};

#define RATIOS (sizeof ratios / sizeof ratios[0])

static void print_ratios(const struct work *works)
{
    for (size_t r = 0; r < RATIOS; r++)
        printf(" %*.2f", (int)strlen(ratios[r].name), works[ratios[r].form].best / works[ratios[r].beside].best);
}

static void print_row(const struct town *town, const struct work *works, size_t many)
{
    printf("%-22s %9zu %8zu", town->name, town->districts, town->vertices);
    for (size_t w = 0; w < many; w++)
        printf(" %12.1f", works[w].best);
    print_ratios(works);
    printf("\n");
    fflush(stdout);
}

static void bench_town(size_t which)
{
    static struct settled settled;
    struct asked asked[FORMS];
    struct work works[FORMS];
    town_make(&settled.town, which);
    rings_copy(&settled.rings, &settled.town.held);
    settled.geos = geos_make(&settled.town.held);
    for (enum form f = 0; f < forms_there(); f++) {
        if (f != WELL_FORMED)
            check_form(&settled, f);
        asked[f] = (struct asked){&settled, &forms[f]};
        works[f] = (struct work){.round = forms[f].ask == NULL ? ask_by_batches : ask_one_by_one, .what = &asked[f], .calls = REPORTS};
    }
    measure(works, forms_there());
    print_row(&settled.town, works, forms_there());
    geos_free(settled.geos);
}

static void print_columns(void)
{
    printf("assigning, ns a report districts vertices");
    for (enum form f = 0; f < forms_there(); f++)
        printf(" %12s", forms[f].name);
}

static void print_ratio_names(void)
{
    for (size_t r = 0; r < RATIOS; r++)
        printf(" %s", ratios[r].name);
}

static void print_head(void)
{
    towns_print();
    printf("by 10, by 100, by 10,000: launchramp_assign_all, so many reports a call\n");
    printf("all rings: plain C, Algorithm 7 on the ring of every district; boxes first: on those in whose box the report is\n");
    if (geos_version() == NULL)
        printf("GEOS: skipped, since libgeos-dev is not on this machine, or not for x86-64\n");
    else
        printf("GEOS: %s, a tree of boxes and prepared polygons\n", geos_version());
    print_columns();
    print_ratio_names();
    printf("\n");
}

int main(void)
{
    print_head();
    for (size_t which = 0; which < towns; which++)
        bench_town(which);
}
