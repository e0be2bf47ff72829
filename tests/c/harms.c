/* What harms.h promises. */
#include "harms.h"

#include <inttypes.h>
#include <stdio.h>
#include <string.h>

/* Fewer say nothing, of each column and each harm. */
#define FEWEST_HARMED 60

static struct harms {
    uint64_t shorter, longer, below, above;
} came[COLUMNS];

/* Whether the lists are the good ones again where this column is put back. */
static bool harmed_alone(const struct lists *harmed, const struct lists *good, enum column c)
{
    static struct lists mended;
    both_copy(&mended, harmed);
    mended.column_length[c] = good->column_length[c];
    memcpy(mended.column[c], good->column[c], sizeof good->column[c]);
    return memcmp(&mended, good, sizeof mended) == 0;
}

static void count(struct harms *harms, const int32_t *column, size_t length, size_t used)
{
    bool below = false, above = false;
    for (size_t i = 0; i < used; i++) {
        below = below || column[i] < -PLAIN_LIMIT;
        above = above || column[i] > PLAIN_LIMIT;
    }
    harms->shorter += length < LAUNCHRAMP_COLUMN_LENGTH;
    harms->longer += length > LAUNCHRAMP_COLUMN_LENGTH;
    harms->below += below;
    harms->above += above;
}

void harms_count(const struct twice *harmed, const struct twice *good)
{
    for (enum column c = OUTLINE_X; c < COLUMNS; c++)
        if (harmed_alone(&harmed->lists, &good->lists, c))
            count(&came[c], harmed->lists.column[c], harmed->lists.column_length[c], plain_used(&good->rows, c));
}

static bool enough(enum column c)
{
    const struct harms *h = &came[c];
    bool enough = h->shorter >= FEWEST_HARMED && h->longer >= FEWEST_HARMED && h->below >= FEWEST_HARMED && h->above >= FEWEST_HARMED;
    printf("  %-18s too short %" PRIu64 ", too long %" PRIu64 "; beyond the grid %" PRIu64 " below, %" PRIu64 " above%s\n", both_columns[c],
           h->shorter, h->longer, h->below, h->above, enough ? "" : " (TOO FEW)");
    return enough;
}

bool harms_enough(void)
{
    bool all = true;
    printf("registers harmed in one column alone; at least %d each:\n", FEWEST_HARMED);
    for (enum column c = OUTLINE_X; c < COLUMNS; c++)
        all = enough(c) && all;
    return all;
}
