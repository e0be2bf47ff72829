/* Numbers by chance from a seed: the same on every machine. */
#ifndef CHANCE_H
#define CHANCE_H

#include <stddef.h>
#include <stdint.h>

struct chance {
    uint64_t state;
};

/* The splitmix64 generator. */
static inline uint64_t chance_next(struct chance *c)
{
    uint64_t z = c->state += 0x9E3779B97F4A7C15u;
    z = (z ^ (z >> 30)) * 0xBF58476D1CE4E5B9u;
    z = (z ^ (z >> 27)) * 0x94D049BB133111EBu;
    return z ^ (z >> 31);
}

/* A number from 0 to n - 1; 0 where n is 0. */
static inline size_t chance_below(struct chance *c, size_t n)
{
    return (size_t)(((chance_next(c) >> 32) * (uint64_t)n) >> 32);
}

/* A number from low to high. */
static inline int32_t chance_between(struct chance *c, int64_t low, int64_t high)
{
    return (int32_t)(low + (int64_t)chance_below(c, (size_t)(high - low + 1)));
}

#endif
