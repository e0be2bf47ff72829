/* What spans.h promises. */
#include "spans.h"

#include <inttypes.h>
#include <stdio.h>

/* Fewer than these say nothing: answers with places apart, at vertices and on edges each, of locating and of each call that sorts a report; and
 * reports that a higher district has elsewhere, of each such call. */
#define FEWEST_APART_IN_LOCATING 200000
#define FEWEST_APART_IN_REPORTS 4000
#define FEWEST_ELSEWHERE 15000

struct counts {
    uint64_t apart, same;
};

static struct spans {
    struct counts vertices, edges;
    uint64_t elsewhere;
} came[CALLS];

static bool sorts_a_fix(enum which which)
{
    return which == ASSIGN_FIX || which == ASSIGN_FIX_COUNTED;
}

static bool sorts_a_report(enum which which)
{
    return which == ASSIGN || which == ASSIGN_COUNTED || sorts_a_fix(which);
}

static struct plain_point point_of(const struct call *call)
{
    struct plain_point r = {call->x, call->y};
    if (sorts_a_fix(call->which))
        plain_place(exact_of(call->easting), exact_of(call->northing), &r);
    return r;
}

/* Whether the report is on a ring, and not as the answer says of the district that it names. */
static bool lies_elsewhere(const struct plain_ring *ring, struct plain_point r, const uint64_t *values)
{
    struct plain_answer place = plain_locate((const int32_t *)ring->at, 2 * ring->n, r.x, r.y);
    if (place.kind != LAUNCHRAMP_VERTEX && place.kind != LAUNCHRAMP_EDGE)
        return false;
    return place.kind != values[LAUNCHRAMP_VALUE_ON] || place.values[0] != values[LAUNCHRAMP_VALUE_LOWEST] ||
           place.values[1] != values[LAUNCHRAMP_VALUE_HIGHEST];
}

static bool higher_district_elsewhere(const struct plain_register *g, struct plain_point r, const uint64_t *values)
{
    for (size_t d = values[0] + 1; d < PLAIN_NUMBERS; d++)
        if (lies_elsewhere(&g->district[d], r, values))
            return true;
    return false;
}

static void count(struct spans *spans, uint64_t kind, uint64_t lowest, uint64_t highest)
{
    struct counts *counts = kind == LAUNCHRAMP_VERTEX ? &spans->vertices : &spans->edges;
    if (lowest == highest)
        counts->same++;
    else
        counts->apart++;
}

void spans_count(const struct twice *t, const struct call *call, const struct plain_answer *answer)
{
    const uint64_t *values = answer->values;
    struct spans *spans = &came[call->which];
    if (answer->kind == LAUNCHRAMP_VERTEX || answer->kind == LAUNCHRAMP_EDGE)
        count(spans, answer->kind, values[0], values[1]);
    if (answer->kind == LAUNCHRAMP_BORDER) {
        count(spans, values[LAUNCHRAMP_VALUE_ON], values[LAUNCHRAMP_VALUE_LOWEST], values[LAUNCHRAMP_VALUE_HIGHEST]);
        spans->elsewhere += higher_district_elsewhere(&t->rows, point_of(call), values);
    }
}

static bool enough(enum which which, uint64_t fewest_apart, uint64_t fewest_elsewhere)
{
    const struct spans *s = &came[which];
    bool enough = s->vertices.apart >= fewest_apart && s->edges.apart >= fewest_apart && s->elsewhere >= fewest_elsewhere;
    printf("  %-18s vertices %" PRIu64 " apart, %" PRIu64 " the same; edges %" PRIu64 " apart, %" PRIu64 " the same", both_names[which],
           s->vertices.apart, s->vertices.same, s->edges.apart, s->edges.same);
    if (sorts_a_report(which))
        printf("; elsewhere on a higher district's ring %" PRIu64, s->elsewhere);
    printf("%s\n", enough ? "" : " (TOO FEW)");
    return enough;
}

bool spans_enough(void)
{
    printf("lowest and highest places; at least %d apart of locating and %d of each call that sorts a report, and %d elsewhere:\n",
           FEWEST_APART_IN_LOCATING, FEWEST_APART_IN_REPORTS, FEWEST_ELSEWHERE);
    bool all = enough(LOCATE, FEWEST_APART_IN_LOCATING, 0);
    for (enum which which = ASSIGN; which < CALLS; which++)
        if (sorts_a_report(which))
            all = enough(which, FEWEST_APART_IN_REPORTS, FEWEST_ELSEWHERE) && all;
    return all;
}
