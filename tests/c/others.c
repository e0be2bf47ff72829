/* What others.h promises. */
#include "others.h"

#include "forms.h"

/* To `pairs`, with the box. */
static struct ring copy_ring(int32_t *pairs, const launchramp_register *held, size_t d)
{
    size_t n = held_size(held, d);
    const int32_t *x = &held->store_x[held_place(held, d)], *y = &held->store_y[held_place(held, d)];
    for (size_t i = 0; i < n; i++) {
        pairs[2 * i] = x[i];
        pairs[2 * i + 1] = y[i];
    }
    return (struct ring){d, n, pairs, box_of(x, y, n)};
}

void rings_copy(struct rings *rings, const launchramp_register *held)
{
    int32_t *free_pairs = rings->pairs;
    rings->many = 0;
    for (size_t d = 0; d < DISTRICTS; d++)
        if (held_size(held, d) > 0) {
            rings->ring[rings->many++] = copy_ring(free_pairs, held, d);
            free_pairs += 2 * held_size(held, d);
        }
}

/* Whether the report is on the ring; then the values are those of LAUNCHRAMP_BORDER. Otherwise notes whether the district holds it. */
static bool ask_ring(const struct ring *ring, int32_t x, int32_t y, struct holding *holding, uint64_t *values)
{
    uint32_t kind = paper_on_ring(ring->at, ring->n, x, y, values);
    if (kind == LAUNCHRAMP_OFF) {
        if (values[0] != 0)
            holding_add(holding, ring->district);
        return false;
    }
    values[LAUNCHRAMP_VALUE_ON] = kind;
    values[LAUNCHRAMP_VALUE_LOWEST] = values[0];
    values[LAUNCHRAMP_VALUE_HIGHEST] = values[1];
    values[0] = ring->district;
    values[1] = 0;
    return true;
}

uint32_t all_rings(const struct rings *rings, int32_t x, int32_t y, uint64_t *values)
{
    struct holding holding = {0, 0};
    for (size_t r = 0; r < rings->many; r++)
        if (ask_ring(&rings->ring[r], x, y, &holding, values))
            return LAUNCHRAMP_BORDER;
    return holding_told(holding, values);
}

static bool is_in(struct box box, int32_t x, int32_t y)
{
    return box.west <= x && x <= box.east && box.south <= y && y <= box.north;
}

uint32_t boxes_first(const struct rings *rings, int32_t x, int32_t y, uint64_t *values)
{
    struct holding holding = {0, 0};
    for (size_t r = 0; r < rings->many; r++)
        if (is_in(rings->ring[r].box, x, y) && ask_ring(&rings->ring[r], x, y, &holding, values))
            return LAUNCHRAMP_BORDER;
    return holding_told(holding, values);
}
