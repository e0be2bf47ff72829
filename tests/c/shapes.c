/* What shapes.h promises. */
#include "shapes.h"

#define LIMIT 1000000000
#define WAVE (1 << 16)

const char *const shape_names[SHAPES] = {"random", "self-crossing", "smooth"};
const char *const shape_meanings[SHAPES] = {"once round a middle, each vertex at a radius of its own", "each vertex anywhere",
                                            "once round a middle, at radii that change slowly"};
const size_t shape_sizes[SHAPE_SIZES] = {4, 16, 64, 256, 1024, SHAPE_MOST_VERTICES};

int32_t shape_coordinate(struct chance *chance)
{
    return 2 * chance_between(chance, -LIMIT / 2, LIMIT / 2);
}

/* A wave of arches, a sine to the eye: from -1,000 to 1,000, once for each WAVE of t. */
static int64_t wave(int64_t t)
{
    int64_t u = t % (WAVE / 2);
    int64_t arch = 4 * 1000 * u * (WAVE / 2 - u) / (WAVE / 2) / (WAVE / 2);
    return t % WAVE < WAVE / 2 ? arch : -arch;
}

/* A smooth ring's radius goes five times up and down by a quarter. */
static void make_round(struct chance *chance, enum shape shape, size_t n, int32_t *ring)
{
    int64_t start = (int64_t)chance_below(chance, WAVE);
    for (size_t i = 0; i < n; i++) {
        int64_t t = start + (int64_t)i * WAVE / (int64_t)n;
        int64_t radius = shape == SMOOTH ? 600000 + 150 * wave(5 * t) : chance_between(chance, 200000, 1000000);
        ring[2 * i] = (int32_t)(radius * wave(t + WAVE / 4) / 2 * 2);
        ring[2 * i + 1] = (int32_t)(radius * wave(t) / 2 * 2);
    }
}

void shape_ring(struct chance *chance, enum shape shape, size_t n, int32_t *ring)
{
    if (shape == SELF_CROSSING)
        for (size_t i = 0; i < 2 * n; i++)
            ring[i] = shape_coordinate(chance);
    else
        make_round(chance, shape, n, ring);
}
