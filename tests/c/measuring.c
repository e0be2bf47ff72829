/* What measuring.h promises. */
#define _POSIX_C_SOURCE 200809L
#include "measuring.h"

#include <time.h>

#define REPEATS 7
#define LEAST_NANOSECONDS 8000000

static volatile uint64_t sink;

static int64_t now(void)
{
    struct timespec t;
    clock_gettime(CLOCK_MONOTONIC, &t);
    return (int64_t)t.tv_sec * 1000000000 + t.tv_nsec;
}

static int64_t run(const struct work *work)
{
    int64_t start = now();
    for (size_t t = 0; t < work->rounds; t++)
        sink += work->round(work->what);
    return now() - start;
}

static void find_rounds(struct work *work)
{
    work->rounds = 1;
    while (run(work) < LEAST_NANOSECONDS)
        work->rounds *= 2;
}

void measure(struct work *works, size_t many)
{
    for (size_t w = 0; w < many; w++) {
        find_rounds(&works[w]);
        works[w].best = (double)INT64_MAX;
    }
    for (size_t t = 0; t < REPEATS * many; t++) {
        struct work *work = &works[t % many];
        double each = (double)run(work) / (double)(work->rounds * work->calls);
        work->best = each < work->best ? each : work->best;
    }
}
