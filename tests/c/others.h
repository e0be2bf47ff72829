/* Assigning in plain C, to measure launchramp_assign against: what a user would write. Both forms answer as the library does, all values,
 * and test nothing. */
#ifndef OTHERS_H
#define OTHERS_H

#include "held.h"

struct ring {
    size_t district, n;
    const int32_t *at;
    struct box box;
};

/* The rings of the districts that there are, lowest first, in pairs x, y. Not to be copied: it points into itself. */
struct rings {
    size_t many;
    struct ring ring[DISTRICTS];
    int32_t pairs[2 * LAUNCHRAMP_COLUMN_LENGTH];
};

void rings_copy(struct rings *rings, const launchramp_register *held);

/* Algorithm 7 on every ring. */
uint32_t all_rings(const struct rings *rings, int32_t x, int32_t y, uint64_t *values);

/* The same on the rings in whose boxes the report is. */
uint32_t boxes_first(const struct rings *rings, int32_t x, int32_t y, uint64_t *values);

#endif
