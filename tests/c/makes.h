/* Good registers of several makes, to be damaged, littered and counted in. */
#ifndef MAKES_H
#define MAKES_H

#include "made.h"

enum make {
    FRESH,
    FOUNDED,
    TWO_DISTRICTS,
    MANY_DISTRICTS,
    ALL_NUMBERS,
    FULL_STORE,
    LONGEST_OUTLINE,
    MAKES
};

/* Sets of makes. */
#define EVERY_MAKE ((1u << MAKES) - 1)
#define WITH_DISTRICTS (EVERY_MAKE & ~(1u << FRESH))
#define WITH_TWO (WITH_DISTRICTS & ~(1u << FOUNDED))

extern const char *const make_names[MAKES];

/* Makes such a register. Runs stand in any order of numbers, and what stands in the free room is on the grid. */
void makes_register(struct twice *t, enum make make, struct land land);

#endif
