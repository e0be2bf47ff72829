/* bench: how long launchramp_locate takes beside the two plain C forms of forms.h, on the same inputs in the same run. All are compiled
 * with the same flags (tests/c/build). Times are the best of several; all three forms must give the same answers, or the status is 1.
 * LAUNCHRAMP_EMULATOR names the emulator that runs it, if any (tools/run-program sets it). */
#include "forms.h"
#include "measuring.h"
#include "shapes.h"

#include <inttypes.h>
#include <stdio.h>
#include <stdlib.h>
#include <string.h>
#include <sys/utsname.h>

#define SEED 7
#define RINGS 4
/* Many, since the machine learns the branches of a short row of points by heart, and reports do not come twice. */
#define POINTS 1024

/* ---- inputs ---- */

enum place { INSIDE, OUTSIDE, BORDER, PLACES };

static const char *const place_names[PLACES] = {"inside", "outside", "border"};

struct input {
    int32_t ring[2 * SHAPE_MOST_VERTICES];
    size_t length;
    int32_t x[POINTS], y[POINTS];
};

static struct chance chance = {SEED};

static bool lies(const struct input *in, int32_t x, int32_t y, enum place place)
{
    uint64_t values[LAUNCHRAMP_VALUES];
    if (table_locate(in->ring, in->length, x, y, values) != LAUNCHRAMP_OFF)
        return place == BORDER;
    return place == (values[0] != 0 ? INSIDE : OUTSIDE);
}

/* On the border: vertices and middles of edges in turn. Elsewhere: anywhere on the grid. */
static void make_point(struct input *in, size_t p, enum place place)
{
    do {
        in->x[p] = shape_coordinate(&chance);
        in->y[p] = shape_coordinate(&chance);
        if (place == BORDER) {
            size_t n = in->length / 2, i = chance_below(&chance, n), j = p % 2 == 0 ? i : (i + 1) % n;
            in->x[p] = (in->ring[2 * i] + in->ring[2 * j]) / 2;
            in->y[p] = (in->ring[2 * i + 1] + in->ring[2 * j + 1]) / 2;
        }
    } while (!lies(in, in->x[p], in->y[p], place));
}

static void make_inputs(struct input *inputs, enum shape shape, size_t n, enum place place)
{
    for (size_t r = 0; r < RINGS; r++) {
        inputs[r].length = 2 * n;
        shape_ring(&chance, shape, n, inputs[r].ring);
        for (size_t p = 0; p < POINTS; p++)
            make_point(&inputs[r], p, place);
    }
}

/* ---- locating ---- */

typedef uint32_t locating(const int32_t *ring, size_t ring_length, int32_t x, int32_t y, uint64_t *values);

#define FORMS 3

static locating *const forms[FORMS] = {launchramp_locate, paper_locate, table_locate};

struct located {
    locating *form;
    const struct input *inputs;
};

static uint64_t locate_all(const void *what)
{
    const struct located *work = what;
    uint64_t values[LAUNCHRAMP_VALUES], sum = 0;
    for (size_t r = 0; r < RINGS; r++) {
        const struct input *in = &work->inputs[r];
        for (size_t p = 0; p < POINTS; p++)
            sum += work->form(in->ring, in->length, in->x[p], in->y[p], values) + values[0] + values[1];
    }
    return sum;
}

static bool agree(const struct input *in, size_t p)
{
    uint64_t first[LAUNCHRAMP_VALUES], other[LAUNCHRAMP_VALUES];
    uint32_t kind = forms[0](in->ring, in->length, in->x[p], in->y[p], first);
    for (size_t f = 1; f < FORMS; f++)
        if (forms[f](in->ring, in->length, in->x[p], in->y[p], other) != kind || memcmp(first, other, sizeof first) != 0)
            return false;
    return true;
}

static void check_agreement(const struct input *inputs, const char *shape, const char *place)
{
    for (size_t t = 0; t < RINGS * POINTS; t++)
        if (!agree(&inputs[t / POINTS], t % POINTS)) {
            printf("the forms do not agree: %s ring %zu of %zu numbers, %s, point %" PRId32 " %" PRId32 "\n", shape, t / POINTS,
                   inputs[t / POINTS].length, place, inputs[t / POINTS].x[t % POINTS], inputs[t / POINTS].y[t % POINTS]);
            exit(1);
        }
}

struct ratios {
    size_t many;
    double at[SHAPES * SHAPE_SIZES * PLACES];
};

#define LONG_RING 256

enum group { OFF_SHORT, OFF_LONG, ON_BORDER, GROUPS };

static const char *const group_names[GROUPS] = {"Algorithm 7, off short rings:", "Algorithm 7, off long rings:", "Algorithm 7, on the border:"};

static struct ratios to_paper[GROUPS], to_table;

static enum group group_of(size_t n, enum place place)
{
    if (place == BORDER)
        return ON_BORDER;
    return n < LONG_RING ? OFF_SHORT : OFF_LONG;
}

static void note(struct ratios *ratios, double ratio)
{
    ratios->at[ratios->many++] = ratio;
}

static void bench_locating(enum shape shape, size_t n, enum place place)
{
    static struct input inputs[RINGS];
    struct located what[FORMS];
    struct work works[FORMS];
    make_inputs(inputs, shape, n, place);
    check_agreement(inputs, shape_names[shape], place_names[place]);
    for (size_t f = 0; f < FORMS; f++) {
        what[f] = (struct located){forms[f], inputs};
        works[f] = (struct work){.round = locate_all, .what = &what[f], .calls = RINGS * POINTS};
    }
    measure(works, FORMS);
    double library = works[0].best, paper = works[1].best, table = works[2].best;
    note(&to_paper[group_of(n, place)], library / paper);
    note(&to_table, library / table);
    printf("%-13s %5zu %-8s %11.1f %13.1f %11.1f %10.2f %8.2f\n", shape_names[shape], n, place_names[place], library, paper, table,
           library / paper, library / table);
    fflush(stdout);
}

static int by_size(const void *a, const void *b)
{
    double p = *(const double *)a, q = *(const double *)b;
    return (p > q) - (p < q);
}

static void print_ratios(const char *name, struct ratios *ratios)
{
    qsort(ratios->at, ratios->many, sizeof ratios->at[0], by_size);
    printf("launchramp / %-29s least %.2f, median %.2f, most %.2f\n", name, ratios->at[0], ratios->at[ratios->many / 2],
           ratios->at[ratios->many - 1]);
}

static void bench_all_locating(void)
{
    for (size_t s = 0; s < SHAPES; s++)
        printf("%-13s ring: %s\n", shape_names[s], shape_meanings[s]);
    printf("locating, ns a call                  launchramp   Algorithm 7  table form  / Algo. 7  / table\n");
    for (size_t t = 0; t < SHAPES * SHAPE_SIZES * PLACES; t++)
        bench_locating((enum shape)(t / (SHAPE_SIZES * PLACES)), shape_sizes[t / PLACES % SHAPE_SIZES], (enum place)(t % PLACES));
    printf("long rings have %d vertices or more\n", LONG_RING);
    for (size_t g = 0; g < GROUPS; g++)
        print_ratios(group_names[g], &to_paper[g]);
    print_ratios("table form:", &to_table);
}

static void print_machine(void)
{
    struct utsname machine;
    const char *emulator = getenv("LAUNCHRAMP_EMULATOR");
    uname(&machine);
    printf("machine: %s %s %s; plain C by %s\n", machine.sysname, machine.release, machine.machine, __VERSION__);
    if (emulator == NULL)
        printf("emulator: none\n");
    else
        printf("emulator: %s; times are the emulator's own; only the ratios count\n", emulator);
}

int main(void)
{
    print_machine();
    bench_all_locating();
}
