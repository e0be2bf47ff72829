/* What towns.h promises. All coordinates of rings are even, so that the middle of every edge is a point of the grid. */
#include "towns.h"

#include "held.h"
#include "shapes.h"

#include <stdio.h>
#include <stdlib.h>
#include <string.h>

#define SEED 7
/* One report in so many is on a border. */
#define BORDER_EVERY 100

static struct chance chance;

static void stop_unless(bool made)
{
    if (!made) {
        printf("a town could not be made\n");
        exit(1);
    }
}

/* ---- strips ---- */

/* 64 upright strips, divided by paths of 14 points, or of 15 in the last 14, to come to 2,048 vertices. Strip t goes from x = t to t + 1
 * times the width. */
#define STRIPS 64
#define STRIP_WIDTH 1000000
#define STRIP_HEIGHT 60000000
#define PATH_POINTS 14
#define LONGER_PATHS 14

static size_t make_path(int32_t *path, size_t t)
{
    size_t k = t + LONGER_PATHS >= STRIPS ? PATH_POINTS + 1 : PATH_POINTS;
    for (size_t p = 0; p < k; p++) {
        path[2 * p] = (int32_t)t * STRIP_WIDTH + 2 * chance_between(&chance, -STRIP_WIDTH / 8, STRIP_WIDTH / 8);
        path[2 * p + 1] = (int32_t)((p + 1) * STRIP_HEIGHT / (k + 1)) / 2 * 2;
    }
    return 2 * k;
}

/* A vertex at the foot and the head of every border. */
static void found_strips(launchramp_register *held)
{
    int32_t ring[4 * (STRIPS + 1)];
    uint64_t values[LAUNCHRAMP_VALUES];
    size_t posts = STRIPS + 1;
    for (size_t t = 0; t < posts; t++) {
        ring[2 * t] = ring[2 * (2 * posts - 1 - t)] = (int32_t)t * STRIP_WIDTH;
        ring[2 * t + 1] = 0;
        ring[2 * (2 * posts - 1 - t) + 1] = STRIP_HEIGHT;
    }
    stop_unless(launchramp_found_in(held, ring, 4 * posts, values) == LAUNCHRAMP_DONE);
}

/* Each split leaves what is right of border t to district 0, whose vertex 0 is the foot of border t - 1 before. */
static void make_strips(launchramp_register *held)
{
    int32_t path[2 * (PATH_POINTS + 1)];
    uint64_t values[LAUNCHRAMP_VALUES];
    found_strips(held);
    for (size_t t = 1; t < STRIPS; t++) {
        size_t length = make_path(path, t), head = 2 * (STRIPS - t) + 2;
        stop_unless(launchramp_split_in(held, 0, 1, head, path, length, values) == LAUNCHRAMP_DONE);
    }
}

static void make_lying_strips(launchramp_register *held)
{
    launchramp_register upright = {0};
    make_strips(&upright);
    memcpy(held->runs, upright.runs, sizeof held->runs);
    memcpy(held->outline_x, upright.outline_y, sizeof held->outline_x);
    memcpy(held->outline_y, upright.outline_x, sizeof held->outline_y);
    memcpy(held->store_x, upright.store_y, sizeof held->store_x);
    memcpy(held->store_y, upright.store_x, sizeof held->store_y);
}

/* ---- cells ---- */

/* 8 by 8 cells on a lattice, with a vertex at each of its points that is on a border: 32 each. */
#define CELLS 8
#define CELL_STEPS 8
#define TOWN_STEPS (CELLS * CELL_STEPS)
#define STEP 1000000

/* How far a vertex on a border between cells is beside it, to either side in turn; corners are not. */
static int32_t aside(int32_t across, int32_t along, int32_t swing)
{
    if (across % CELL_STEPS != 0 || across % TOWN_STEPS == 0 || along % CELL_STEPS == 0)
        return 0;
    return along % 2 == 0 ? -swing : swing;
}

/* The ring round a square of the lattice, from its corner u, v on, to two columns. Answers its number of vertices. */
static uint32_t put_square(int32_t *x, int32_t *y, int32_t u, int32_t v, int32_t steps, int32_t swing)
{
    static const int32_t east[] = {1, 0, -1, 0}, north[] = {0, 1, 0, -1};
    for (int32_t i = 0; i < 4 * steps; i++) {
        x[i] = u * STEP + aside(u, v, swing);
        y[i] = v * STEP + aside(v, u, swing);
        u += east[i / steps];
        v += north[i / steps];
    }
    return 4 * (uint32_t)steps;
}

static void make_cells(launchramp_register *held, int32_t swing)
{
    uint32_t place = 0;
    held->runs[0] = put_square(held->outline_x, held->outline_y, 0, 0, TOWN_STEPS, swing);
    for (int32_t d = 0; d < CELLS * CELLS; d++) {
        int32_t u = d % CELLS * CELL_STEPS, v = d / CELLS * CELL_STEPS;
        held->runs[FIRST_PLACE + d] = place;
        held->runs[FIRST_SIZE + d] = put_square(&held->store_x[place], &held->store_y[place], u, v, CELL_STEPS, swing);
        place += held->runs[FIRST_SIZE + d];
    }
}

static void make_blocks(launchramp_register *held)
{
    make_cells(held, 0);
}

static void make_zigzag_cells(launchramp_register *held)
{
    make_cells(held, STEP / 2);
}

/* ---- few districts ---- */

static void make_halves(launchramp_register *held)
{
    const int32_t height = STRIP_HEIGHT, width = STRIPS * STRIP_WIDTH;
    const int32_t square[] = {0, 0, width, 0, width, height, 0, height};
    uint64_t values[LAUNCHRAMP_VALUES];
    stop_unless(launchramp_found_in(held, square, sizeof square / sizeof square[0], values) == LAUNCHRAMP_DONE);
    stop_unless(launchramp_split_in(held, 0, 0, 2, square, 0, values) == LAUNCHRAMP_DONE);
}

static void make_one(launchramp_register *held, size_t vertices)
{
    int32_t ring[2 * SHAPE_MOST_VERTICES];
    uint64_t values[LAUNCHRAMP_VALUES];
    shape_ring(&chance, RANDOM, vertices, ring);
    stop_unless(launchramp_found_in(held, ring, 2 * vertices, values) == LAUNCHRAMP_DONE);
}

/* ---- towns ---- */

static const struct {
    const char *name, *meaning;
    void (*make)(launchramp_register *held);
} makes[] = {
    {"strips", "upright, with crooked borders: each touches a report's row", make_strips},
    {"lying strips", "the same with x and y exchanged: each touches a report's column", make_lying_strips},
    {"blocks", "8 by 8 squares, with vertices along straight borders", make_blocks},
    {"zigzag cells", "8 by 8 cells, whose borders with each other zigzag", make_zigzag_cells},
    {"halves", "two triangles", make_halves},
};

#define MAKES (sizeof makes / sizeof makes[0])

static const char ONE_DISTRICT[] = "one district";

const size_t towns = MAKES + SHAPE_SIZES;

void towns_print(void)
{
    for (size_t m = 0; m < MAKES; m++)
        printf("%-13s %s\n", makes[m].name, makes[m].meaning);
    printf("%-13s a %s ring: %s\n", ONE_DISTRICT, shape_names[RANDOM], shape_meanings[RANDOM]);
}

static void count_used(struct town *town)
{
    town->districts = town->vertices = 0;
    for (size_t d = 0; d < DISTRICTS; d++) {
        town->districts += held_size(&town->held, d) > 0;
        town->vertices += held_size(&town->held, d);
    }
}

/* Of any district: the towns use the lowest numbers. */
static void report_on_border(const struct town *town, int32_t *report)
{
    const launchramp_register *held = &town->held;
    size_t d = chance_below(&chance, town->districts), n = held_size(held, d);
    size_t i = chance_below(&chance, n), j = chance_below(&chance, 2) == 0 ? i : (i + 1) % n;
    const int32_t *x = &held->store_x[held_place(held, d)], *y = &held->store_y[held_place(held, d)];
    report[0] = (x[i] + x[j]) / 2;
    report[1] = (y[i] + y[j]) / 2;
}

static void make_reports(struct town *town)
{
    struct box box = box_of(town->held.outline_x, town->held.outline_y, town->held.runs[0]);
    for (size_t p = 0; p < REPORTS; p++) {
        int32_t *report = &town->reports[2 * p];
        report[0] = chance_between(&chance, box.west, box.east);
        report[1] = chance_between(&chance, box.south, box.north);
        if (p % BORDER_EVERY == 0)
            report_on_border(town, report);
    }
}

void town_make(struct town *town, size_t which)
{
    memset(town, 0, sizeof *town);
    chance.state = SEED;
    town->name = which < MAKES ? makes[which].name : ONE_DISTRICT;
    if (which < MAKES)
        makes[which].make(&town->held);
    else
        make_one(&town->held, shape_sizes[which - MAKES]);
    stop_unless(launchramp_well_formed_in(&town->held));
    count_used(town);
    make_reports(town);
}
