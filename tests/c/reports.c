/* reports STREAM: how long assigning takes on the reports of a stream, apart from decoding and printing. The records before the first report
 * make the register, through the library; then the reports are assigned in batches, counted in a tally, and timed. Prints the seconds. */
#define _POSIX_C_SOURCE 200809L
#include "launchramp.h"

#include <stdio.h>
#include <stdlib.h>
#include <string.h>
#include <time.h>

enum { OUTLINE = 1, SPLIT = 2, REPORT = 4 };

/* Where the pairs of an outline and of a split begin, and how many bytes a report has. */
#define OUTLINE_HEAD 5
#define SPLIT_HEAD 10
#define REPORT_SIZE 15
#define PAIR 8
/* About as many reports as the program takes from a piece of its input. */
#define BATCH 4096

static launchramp_register town;
static uint32_t counts[LAUNCHRAMP_COUNTS];
static int32_t pairs[2 * LAUNCHRAMP_COLUMN_LENGTH];
static int32_t points[2 * BATCH];
static launchramp_answer answers[BATCH];
static uint64_t values[LAUNCHRAMP_VALUES];

static size_t two(const unsigned char *at)
{
    return at[0] + 256u * at[1];
}

static const int32_t *read_pairs(const unsigned char *at, size_t n)
{
    memcpy(pairs, at, PAIR * n);
    return pairs;
}

/* Makes the call that a record before the reports holds, and answers the place behind it. */
static const unsigned char *apply(const unsigned char *at)
{
    size_t n;
    uint32_t kind;
    if (at[2] == OUTLINE) {
        n = two(at + 3);
        kind = launchramp_found_in(&town, read_pairs(at + OUTLINE_HEAD, n), 2 * n, values);
        at += OUTLINE_HEAD + PAIR * n;
    } else {
        n = two(at + 8);
        kind = launchramp_split_in(&town, at[3], two(at + 4), two(at + 6), read_pairs(at + SPLIT_HEAD, n), 2 * n, values);
        at += SPLIT_HEAD + PAIR * n;
    }
    if (kind == LAUNCHRAMP_REFUSED) {
        fprintf(stderr, "reports: a record of the register was refused by %d\n", (int)values[0]);
        exit(1);
    }
    return at;
}

static double seconds(void)
{
    struct timespec now;
    clock_gettime(CLOCK_MONOTONIC, &now);
    return now.tv_sec + now.tv_nsec * 1e-9;
}

static unsigned char *contents(const char *name, size_t *size)
{
    FILE *file = fopen(name, "rb");
    if (file == NULL || fseek(file, 0, SEEK_END) != 0) {
        fprintf(stderr, "reports: %s can't be read\n", name);
        exit(1);
    }
    *size = (size_t)ftell(file);
    rewind(file);
    unsigned char *bytes = malloc(*size);
    if (bytes == NULL || fread(bytes, 1, *size, file) != *size) {
        fprintf(stderr, "reports: %s can't be read\n", name);
        exit(1);
    }
    fclose(file);
    return bytes;
}

int main(int count, char **words)
{
    if (count != 2) {
        fprintf(stderr, "usage: reports STREAM\n");
        return 2;
    }
    size_t size;
    const unsigned char *bytes = contents(words[1], &size);
    const unsigned char *at = bytes;
    while (at[2] != REPORT)
        at = apply(at);
    double start = seconds();
    while (at < bytes + size) {
        size_t n = 0;
        for (; n < BATCH && at < bytes + size; n++, at += REPORT_SIZE)
            memcpy(points + 2 * n, at + 7, PAIR);
        launchramp_assign_all_counted_in(&town, points, 2 * n, answers, n, counts, values);
    }
    printf("%.3f\n", seconds() - start);
    return 0;
}
