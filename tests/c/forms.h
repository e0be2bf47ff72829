/* Two plain C forms of locating, for bench.c to measure the library against. They take what launchramp_locate takes, test the same things
 * (the list's length, the grid's limits), and give the same answers in the same way, the lowest and the highest place too. */
#ifndef FORMS_H
#define FORMS_H

#include "launchramp.h"

/* Algorithm 7 of source document 001, the efficient boundary algorithm: an edge that does not cross the point's horizontal line costs a few
 * comparisons, and no quadrant is named. One thing is not as in the paper: where the point is met on the ring, the answer is not there yet,
 * since the rules put vertices before edges and ask for the highest place too. Behind an edge that holds the point only vertices are looked
 * for. The highest place is looked for from the ring's end backward: a vertex where there is one, otherwise an edge. */
uint32_t paper_locate(const int32_t *ring, size_t ring_length, int32_t x, int32_t y, uint64_t *values);

/* The same on a ring of n vertices, with nothing tested. */
uint32_t paper_on_ring(const int32_t *ring, size_t n, int32_t x, int32_t y, uint64_t *values);

/* The table form: the quadrant of each vertex by comparisons without a branch, the quarter turns of each edge from a table of four by four
 * with a mark where the determinant decides. It goes round to the end unless it meets a vertex, and then looks for the highest one from the
 * ring's end backward. */
uint32_t table_locate(const int32_t *ring, size_t ring_length, int32_t x, int32_t y, uint64_t *values);

#endif
