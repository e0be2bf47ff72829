/* differ [SEED]: the library against plain.c on made calls: rings and points, the lives of registers, damage and litter, tallies, reports in
 * metres and in batches. It prints a line for each part, then how often each answer came of each call. Status 1 where anything differs, where a part asked
 * nothing or sums.h, spans.h, harms.h or answers.h too little, or where launchramp.h names an answer that never came. */
#include "batches.h"
#include "damage.h"
#include "harms.h"
#include "litter.h"
#include "lives.h"
#include "spans.h"
#include "sums.h"
#include "tallies.h"

#include <inttypes.h>
#include <stdio.h>
#include <stdlib.h>

#define DEFAULT_SEED 20

/* ---- locating ---- */

static struct plain_answer locate(const struct made_list *ring, struct plain_point r)
{
    struct call call = {.which = LOCATE, .list = ring->at, .length = ring->length, .x = r.x, .y = r.y};
    return both_ask(NULL, &call);
}

static void fail(const char *why)
{
    printf("%s: call %" PRIu64 ": %s\n", both_about, both_calls, why);
    exit(1);
}

static struct made_list ring;

/* ---- known places ---- */

static const int32_t square[] = {0, 0, 4, 0, 4, 4, 0, 4};
static const int32_t square_twice[] = {0, 0, 4, 0, 4, 4, 0, 4, 0, 0, 4, 0, 4, 4, 0, 4};
static const int32_t bow_tie[] = {0, 0, 4, 4, 4, 0, 0, 4};
static const int32_t one_point[] = {1, 1, 1, 1, 1, 1};
static const int32_t there_and_half_way_back[] = {0, 0, 4, 0, 2, 0};
static const int32_t doubled_corner[] = {0, 0, 4, 0, 4, 0, 4, 4, 0, 4};
static const int32_t spike[] = {0, 0, 4, 0, 7, 0, 4, 0, 4, 4, 0, 4};

#define RING(list) list, LENGTH(list)

static const struct {
    const int32_t *ring;
    size_t length;
    struct plain_point at;
    struct plain_answer answer;
} known[] = {
    {RING(square), {4, 4}, {LAUNCHRAMP_VERTEX, {2, 2}}},
    {RING(square), {4, 1}, {LAUNCHRAMP_EDGE, {1, 1}}},
    {RING(square), {0, 2}, {LAUNCHRAMP_EDGE, {3, 3}}},
    {RING(square_twice), {4, 4}, {LAUNCHRAMP_VERTEX, {2, 6}}},
    {RING(square_twice), {0, 2}, {LAUNCHRAMP_EDGE, {3, 7}}},
    {RING(bow_tie), {2, 2}, {LAUNCHRAMP_EDGE, {0, 2}}},
    {RING(one_point), {1, 1}, {LAUNCHRAMP_VERTEX, {0, 2}}},
    {RING(there_and_half_way_back), {3, 0}, {LAUNCHRAMP_EDGE, {0, 1}}},
    {RING(doubled_corner), {4, 0}, {LAUNCHRAMP_VERTEX, {1, 2}}},
    {RING(spike), {6, 0}, {LAUNCHRAMP_EDGE, {1, 2}}},
    {RING(spike), {4, 0}, {LAUNCHRAMP_VERTEX, {1, 3}}},
};

static void locate_known_places(void)
{
    for (size_t i = 0; i < LENGTH(known); i++) {
        struct call call = {.which = LOCATE, .list = known[i].ring, .length = known[i].length, .x = known[i].at.x, .y = known[i].at.y};
        if (!both_same(both_ask(NULL, &call), known[i].answer))
            fail("another answer than is known");
    }
}

/* ---- places that are known to repeat ---- */

static struct plain_point vertex_of(const struct made_list *ring, size_t i)
{
    struct plain_point r = {ring->at[2 * i], ring->at[2 * i + 1]};
    return r;
}

/* The point is vertex i and vertex j, if not earlier and later ones too. */
static void locate_at_vertices(const struct made_list *ring, size_t i, size_t j)
{
    struct plain_answer answer = locate(ring, vertex_of(ring, i));
    if (answer.kind != LAUNCHRAMP_VERTEX || answer.values[0] > i || answer.values[1] < j)
        fail("a vertex was passed over");
}

/* The middle of edge i is on edge j too, and may be a vertex. */
static void locate_on_edges(const struct made_list *ring, size_t i, size_t j)
{
    struct plain_answer answer = locate(ring, made_middle(ring->at, ring->length, i));
    if (answer.kind != LAUNCHRAMP_VERTEX && (answer.kind != LAUNCHRAMP_EDGE || answer.values[0] > i || answer.values[1] < j))
        fail("an edge was passed over");
}

/* Even coordinates, so that the middle of every edge is a point of the grid; answers where they are taken from. */
static struct land make_even_ring(void)
{
    struct land land = {(int32_t)(1 + below(30)), 2};
    made_list_of(&ring, PLAIN_FEWEST_VERTICES + below(8), land);
    return land;
}

static void locate_at_doubled_corners(void)
{
    make_even_ring();
    size_t corner = made_doubled_corner(&ring);
    locate_at_vertices(&ring, corner, corner + 1);
}

static void locate_on_spikes(void)
{
    struct land land = make_even_ring();
    size_t foot = made_spike(&ring, land);
    locate_at_vertices(&ring, foot, foot + 2);
    locate_on_edges(&ring, foot, foot + 1);
}

static void locate_on_rings_listed_twice(void)
{
    make_even_ring();
    size_t n = ring.length / 2, i = below(n);
    made_again(&ring, false);
    locate_at_vertices(&ring, i, i + n);
    locate_on_edges(&ring, i, i + n);
}

/* ---- other rings ---- */

static void locate_on_small_grids(void)
{
    struct land land = {(int32_t)(1 + below(4)), 1};
    made_list_of(&ring, PLAIN_FEWEST_VERTICES + below(8), land);
    for (int t = 0; t < 4; t++)
        locate(&ring, made_point(ring.at, ring.length, land));
}

static void locate_on_doubled_and_spiked_rings(void)
{
    struct land land = {(int32_t)(1 + below(5)), 2};
    made_list_of(&ring, 1 + below(6), land);
    for (size_t t = 0; t < 4; t++) {
        if (once_in(2))
            made_again(&ring, once_in(3));
        if (once_in(2))
            made_spike(&ring, land);
        else
            made_doubled_corner(&ring);
        locate(&ring, made_point(ring.at, ring.length, land));
    }
}

static void locate_at_the_limits_of_the_grid(void)
{
    made_list_of(&ring, PLAIN_FEWEST_VERTICES + below(6), LIMITS);
    for (int t = 0; t < 4; t++)
        locate(&ring, made_point(ring.at, ring.length, LIMITS));
}

static void locate_on_long_rings(void)
{
    struct land near = {(int32_t)(3 + below(200)), 2};
    struct land land = once_in(3) ? LIMITS : near;
    made_list_of(&ring, once_in(2) ? PLAIN_MOST_VERTICES : 100 + below(PLAIN_MOST_VERTICES - 100), land);
    for (int t = 0; t < 3; t++)
        locate(&ring, made_point(ring.at, ring.length, land));
}

static void locate_what_is_refused(void)
{
    struct land land = {3, 1};
    size_t vertices = once_in(200) ? PLAIN_MOST_VERTICES - 1 + below(3) : below(8);
    made_list_of(&ring, vertices, land);
    struct plain_point r = made_point(ring.at, ring.length, land);
    if (once_in(2))
        ring.at[below(ring.length)] = made_beyond();
    if (once_in(4))
        r.x = made_beyond();
    if (once_in(4))
        r.y = made_beyond();
    if (once_in(3))
        ring.length++;
    locate(&ring, r);
}

/* ---- all parts ---- */

static void part(const char *name, int times, void (*make)(void))
{
    uint64_t before = both_calls;
    both_about = name;
    for (int t = 0; t < times; t++)
        make();
    printf("%-44s %9" PRIu64 " calls, 0 differ%s\n", name, both_calls - before, both_calls == before ? " (NOTHING ASKED)" : "");
    fflush(stdout);
    if (both_calls == before)
        exit(1);
}

int main(int count, char **words)
{
    made_chance.state = count > 1 ? (uint64_t)atoll(words[1]) : DEFAULT_SEED;
    part("locating at known places", 1, locate_known_places);
    part("locating at doubled corners", 100000, locate_at_doubled_corners);
    part("locating on spikes", 100000, locate_on_spikes);
    part("locating on rings listed twice over", 100000, locate_on_rings_listed_twice);
    part("locating on small grids", 500000, locate_on_small_grids);
    part("locating on doubled and spiked rings", 150000, locate_on_doubled_and_spiked_rings);
    part("locating at the limits of the grid", 250000, locate_at_the_limits_of_the_grid);
    part("locating on long rings", 2000, locate_on_long_rings);
    part("locating what is refused", 400000, locate_what_is_refused);
    part("small registers", 2000, live_small);
    part("registers with all numbers in use", 200, live_with_all_numbers_in_use);
    part("registers with a full store", 200, live_with_a_full_store);
    part("registers with repeated places", 1000, live_with_repeated_places);
    part("splits that are taken back", 600, live_there_and_back);
    part("reports in metres", 600, report_in_metres);
    damage_registers(40);
    litter_registers(40);
    tallies_at_their_limits();
    part("tallies of lives", 1000, tallies_of_a_life);
    part("batches on scattered districts", 200, batches_on_scattered_districts);
    part("batches on registers of every make", 200, batches_on_every_make);
    bool summed = sums_enough();
    bool apart = spans_enough();
    bool harmed = harms_enough();
    bool batched = answers_enough();
    printf("%" PRIu64 " calls; how often each answer and each [refusal] came:\n", both_calls);
    return both_all_reached() && summed && apart && harmed && batched ? 0 : 1;
}
