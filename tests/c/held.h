/* Where the rings of a register's districts stand, the box of a ring, and the answer to a report that is on none. */
#ifndef HELD_H
#define HELD_H

#include "launchramp.h"

#include <string.h>

#define DISTRICTS 64
#define FIRST_PLACE 1
#define FIRST_SIZE (FIRST_PLACE + DISTRICTS)

/* The place of district d's vertex 0 in both columns of the store. */
static inline size_t held_place(const launchramp_register *held, size_t d)
{
    return held->runs[FIRST_PLACE + d];
}

/* How many vertices district d has; 0 for an unused number. */
static inline size_t held_size(const launchramp_register *held, size_t d)
{
    return held->runs[FIRST_SIZE + d];
}

struct box {
    int32_t west, south, east, north;
};

/* Of a ring of n vertices in two columns. */
static inline struct box box_of(const int32_t *x, const int32_t *y, size_t n)
{
    struct box box = {x[0], y[0], x[0], y[0]};
    for (size_t i = 1; i < n; i++) {
        box.west = x[i] < box.west ? x[i] : box.west;
        box.south = y[i] < box.south ? y[i] : box.south;
        box.east = x[i] > box.east ? x[i] : box.east;
        box.north = y[i] > box.north ? y[i] : box.north;
    }
    return box;
}

/* The districts that hold a report. */
struct holding {
    size_t lowest, many;
};

static inline void holding_add(struct holding *holding, size_t d)
{
    if (holding->many == 0 || d < holding->lowest)
        holding->lowest = d;
    holding->many++;
}

/* All values, as the library tells them. */
static inline uint32_t holding_told(struct holding holding, uint64_t *values)
{
    memset(values, 0, LAUNCHRAMP_VALUES * sizeof *values);
    values[0] = holding.lowest;
    if (holding.many > 1)
        values[1] = holding.many;
    return holding.many == 0 ? LAUNCHRAMP_NONE : holding.many == 1 ? LAUNCHRAMP_ONE : LAUNCHRAMP_SEVERAL;
}

#endif
