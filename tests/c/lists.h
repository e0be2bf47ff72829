/* The five lists of a register as the tests hold them: each with the length that is told, and room behind it. */
#ifndef LISTS_H
#define LISTS_H

#include "launchramp.h"

/* Numbers behind each list that no call may change; a list of a wrong length reaches into them. 7 leaves no padding in struct lists. */
#define LISTS_SPARE 7

/* In the order in which the calls take them. */
enum column { OUTLINE_X, OUTLINE_Y, STORE_X, STORE_Y, COLUMNS };

struct lists {
    size_t column_length[COLUMNS], runs_length;
    int32_t column[COLUMNS][LAUNCHRAMP_COLUMN_LENGTH + LISTS_SPARE];
    uint32_t runs[LAUNCHRAMP_RUNS_LENGTH + LISTS_SPARE];
};

/* Where first places and numbers of vertices begin in the runs. */
#define PLACES 1
#define SIZES 65

#endif
