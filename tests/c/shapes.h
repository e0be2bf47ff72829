/* Rings by chance, for bench.c and its towns. All coordinates are even, so that the middle of every edge is a point of the grid. */
#ifndef SHAPES_H
#define SHAPES_H

#include "chance.h"

enum shape { RANDOM, SELF_CROSSING, SMOOTH, SHAPES };

extern const char *const shape_names[SHAPES], *const shape_meanings[SHAPES];

#define SHAPE_SIZES 6
#define SHAPE_MOST_VERTICES 2048

/* The numbers of vertices that are measured. */
extern const size_t shape_sizes[SHAPE_SIZES];

int32_t shape_coordinate(struct chance *chance);
void shape_ring(struct chance *chance, enum shape shape, size_t n, int32_t *ring);

#endif
