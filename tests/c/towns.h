/* Towns to measure assigning on: a register, and the reports that are asked of it. The same on every machine. */
#ifndef TOWNS_H
#define TOWNS_H

#include "launchramp.h"

/* Many, since the machine learns the branches of a short row of points by heart, and reports do not come twice. */
#define REPORTS 10000

struct town {
    const char *name;
    launchramp_register held;
    size_t districts, vertices;
    /* x, y, x, y, .. */
    int32_t reports[2 * REPORTS];
};

/* How many towns there are. */
extern const size_t towns;

/* One line for each kind of town. */
void towns_print(void);

/* A hundredth of the reports are vertices of districts or middles of their edges, the others anywhere in the outline's box. */
void town_make(struct town *town, size_t which);

#endif
