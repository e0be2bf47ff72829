/* Times of several works beside each other. */
#ifndef MEASURING_H
#define MEASURING_H

#include <stddef.h>
#include <stdint.h>

/* A round makes so many calls, and answers a number that hangs on all of them, so that no call can be left out. */
struct work {
    uint64_t (*round)(const void *what);
    const void *what;
    size_t calls;
    size_t rounds;
    double best;
};

/* Measures each work in turn, several times, and leaves in `best` the best nanoseconds a call of each. */
void measure(struct work *works, size_t many);

#endif
