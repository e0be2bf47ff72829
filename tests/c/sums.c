/* What sums.h promises. */
#include "sums.h"
#include "made.h"

#include <inttypes.h>
#include <stdio.h>

#define POINTS_AFTER_A_CHANGE 4

/* Fewer than these say nothing: points off all rings, those of them that the outline winds about, and those that two districts or more do. */
#define FEWEST_POINTS 500000
#define FEWEST_INSIDE 100000
#define FEWEST_LAYERED 100000

static uint64_t asked, inside, layered;

/* The rings of the lists as launchramp_locate takes them: x, y, x, y, .. */
struct rings {
    int32_t outline[2 * LAUNCHRAMP_COLUMN_LENGTH], store[2 * LAUNCHRAMP_COLUMN_LENGTH];
    const uint32_t *runs;
};

static void pair(int32_t *pairs, const int32_t *xs, const int32_t *ys)
{
    for (size_t i = 0; i < LAUNCHRAMP_COLUMN_LENGTH; i++) {
        pairs[2 * i] = xs[i];
        pairs[2 * i + 1] = ys[i];
    }
}

struct turns {
    /* The point is on a ring, where there is nothing to add. */
    bool on_ring;
    int64_t sum;
    /* About how many rings the winding number is not 0. */
    size_t many;
};

static void add_ring(struct turns *turns, const int32_t *ring, size_t n, struct plain_point r)
{
    uint64_t values[LAUNCHRAMP_VALUES];
    if (launchramp_locate(ring, 2 * n, r.x, r.y, values) != LAUNCHRAMP_OFF) {
        turns->on_ring = true;
        return;
    }
    turns->sum += values[1] == 1 ? -(int64_t)values[0] : (int64_t)values[0];
    turns->many += values[0] != 0;
}

static struct turns of_districts(const struct rings *rings, struct plain_point r)
{
    struct turns turns = {false, 0, 0};
    for (size_t d = 0; d < PLAIN_NUMBERS && !turns.on_ring; d++) {
        const size_t place = rings->runs[PLACES + d], n = rings->runs[SIZES + d];
        if (n > 0)
            add_ring(&turns, rings->store + 2 * place, n, r);
    }
    return turns;
}

static int32_t on_grid(int64_t coordinate)
{
    return (int32_t)(coordinate > PLAIN_LIMIT ? PLAIN_LIMIT : coordinate < -PLAIN_LIMIT ? -PLAIN_LIMIT : coordinate);
}

/* A step to the side of a vertex, of the middle of an edge, or of some point between the ring's first vertex and another. */
static struct plain_point point_near(const int32_t *ring, size_t n)
{
    static const int32_t steps[] = {-1, 0, 1, -1, 1, 3, -3};
    size_t i = below(n), j = once_in(3) ? i : once_in(2) ? (i + 1) % n : 0;
    int64_t x = ((int64_t)ring[2 * i] + ring[2 * j]) / 2, y = ((int64_t)ring[2 * i + 1] + ring[2 * j + 1]) / 2;
    struct plain_point r = {on_grid(x + steps[below(LENGTH(steps))]), on_grid(y + steps[below(LENGTH(steps))])};
    return r;
}

/* Near the outline or near a ring of the store. */
static struct plain_point some_point(const struct rings *rings)
{
    size_t d = below(PLAIN_NUMBERS), n = rings->runs[SIZES + d];
    if (n == 0 || once_in(3))
        return point_near(rings->outline, rings->runs[0]);
    return point_near(rings->store + 2 * (size_t)rings->runs[PLACES + d], n);
}

static bool holds_at(const struct rings *rings, struct plain_point r)
{
    struct turns outer = {false, 0, 0}, inner = of_districts(rings, r);
    add_ring(&outer, rings->outline, rings->runs[0], r);
    if (inner.on_ring || outer.on_ring)
        return true;
    asked++;
    inside += outer.sum != 0;
    layered += inner.many > 1;
    if (inner.sum == outer.sum)
        return true;
    printf("at %" PRId32 " %" PRId32 " the winding numbers about the districts add up to %" PRId64 ", that about the outline is %" PRId64 "\n",
           r.x, r.y, inner.sum, outer.sum);
    return false;
}

bool sums_hold(const struct lists *l)
{
    static struct rings rings;
    pair(rings.outline, l->column[OUTLINE_X], l->column[OUTLINE_Y]);
    pair(rings.store, l->column[STORE_X], l->column[STORE_Y]);
    rings.runs = l->runs;
    for (int t = 0; t < POINTS_AFTER_A_CHANGE; t++)
        if (!holds_at(&rings, some_point(&rings)))
            return false;
    return true;
}

bool sums_enough(void)
{
    bool enough = asked >= FEWEST_POINTS && inside >= FEWEST_INSIDE && layered >= FEWEST_LAYERED;
    printf("sums of winding numbers: asked at %" PRIu64 " points off all rings, %" PRIu64 " of them inside the outline, %" PRIu64
           " in two districts or more%s\n",
           asked, inside, layered, enough ? "" : " (TOO FEW)");
    return enough;
}
