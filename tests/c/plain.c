/* What plain.h promises. The calls follow the order of refusals of docs/RULES.md. */
#include "plain.h"

#include <string.h>

__extension__ typedef __int128 wide;

static struct plain_answer told(uint32_t kind, uint64_t first, uint64_t second)
{
    struct plain_answer answer = {kind, {first, second}};
    return answer;
}

static struct plain_answer refused(uint64_t number)
{
    return told(LAUNCHRAMP_REFUSED, number, 0);
}

static bool beyond(int64_t coordinate)
{
    return coordinate < -PLAIN_LIMIT || coordinate > PLAIN_LIMIT;
}

static bool some_beyond(const int32_t *list, size_t length)
{
    for (size_t i = 0; i < length; i++)
        if (beyond(list[i]))
            return true;
    return false;
}

static bool no_ring(size_t length)
{
    return length % 2 == 1 || length / 2 < PLAIN_FEWEST_VERTICES || length / 2 > PLAIN_MOST_VERTICES;
}

/* Positive where r lies to the left of the way from p to q. */
static wide determinant(struct plain_point p, struct plain_point q, struct plain_point r)
{
    return ((wide)p.x - r.x) * ((wide)q.y - r.y) - ((wide)q.x - r.x) * ((wide)p.y - r.y);
}

static bool same_point(struct plain_point p, struct plain_point q)
{
    return p.x == q.x && p.y == q.y;
}

static bool between(int32_t a, int32_t b, int32_t c)
{
    return (a <= b && b <= c) || (c <= b && b <= a);
}

static bool on_edge(struct plain_point p, struct plain_point q, struct plain_point r)
{
    return determinant(p, q, r) == 0 && between(p.x, r.x, q.x) && between(p.y, r.y, q.y);
}

static size_t next(size_t i, size_t n)
{
    return i + 1 < n ? i + 1 : 0;
}

/* An edge that goes up counts with its lower end and without its upper end, and so does one that goes down. */
static int crossing(struct plain_point p, struct plain_point q, struct plain_point r)
{
    if (p.y <= r.y && q.y > r.y)
        return determinant(p, q, r) > 0 ? 1 : 0;
    if (p.y > r.y && q.y <= r.y)
        return determinant(p, q, r) < 0 ? -1 : 0;
    return 0;
}

static int winding(const struct plain_point *at, size_t n, struct plain_point r)
{
    int turns = 0;
    for (size_t i = 0; i < n; i++)
        turns += crossing(at[i], at[next(i, n)], r);
    return turns;
}

/* The indices of a ring at which a point was met: how many, the lowest and the highest. */
struct met {
    size_t many, lowest, highest;
};

/* Indices come in their order. */
static void meet(struct met *met, size_t i)
{
    if (met->many++ == 0)
        met->lowest = i;
    met->highest = i;
}

/* Every vertex is looked at, and then every edge. */
static struct plain_answer located(const struct plain_point *at, size_t n, struct plain_point r)
{
    struct met vertices = {0, 0, 0}, edges = {0, 0, 0};
    for (size_t i = 0; i < n; i++)
        if (same_point(at[i], r))
            meet(&vertices, i);
    if (vertices.many > 0)
        return told(LAUNCHRAMP_VERTEX, vertices.lowest, vertices.highest);
    for (size_t i = 0; i < n; i++)
        if (on_edge(at[i], at[next(i, n)], r))
            meet(&edges, i);
    if (edges.many > 0)
        return told(LAUNCHRAMP_EDGE, edges.lowest, edges.highest);
    int turns = winding(at, n, r);
    return turns < 0 ? told(LAUNCHRAMP_OFF, (uint64_t)-turns, 1) : told(LAUNCHRAMP_OFF, (uint64_t)turns, 0);
}

static void take_ring(struct plain_ring *ring, const int32_t *list, size_t n)
{
    ring->n = n;
    for (size_t i = 0; i < n; i++) {
        ring->at[i].x = list[2 * i];
        ring->at[i].y = list[2 * i + 1];
    }
}

struct plain_answer plain_locate(const int32_t *list, size_t length, int32_t x, int32_t y)
{
    static struct plain_ring ring;
    struct plain_point r = {x, y};
    if (no_ring(length))
        return refused(NO_RING);
    if (some_beyond(list, length) || beyond(x) || beyond(y))
        return refused(BEYOND_GRID);
    take_ring(&ring, list, length / 2);
    return located(ring.at, ring.n, r);
}

size_t plain_total(const struct plain_register *g)
{
    size_t total = 0;
    for (size_t d = 0; d < PLAIN_NUMBERS; d++)
        total += g->district[d].n;
    return total;
}

size_t plain_used(const struct plain_register *g, enum column c)
{
    return c == OUTLINE_X || c == OUTLINE_Y ? g->outline.n : plain_total(g);
}

static bool in_use(const struct plain_register *g, size_t d)
{
    return d < PLAIN_NUMBERS && g->district[d].n > 0;
}

struct plain_answer plain_found(struct plain_register *g, const int32_t *list, size_t length)
{
    if (g->outline.n > 0)
        return refused(OUTLINE_THERE);
    if (no_ring(length))
        return refused(NO_RING);
    if (some_beyond(list, length))
        return refused(BEYOND_GRID);
    take_ring(&g->outline, list, length / 2);
    take_ring(&g->district[0], list, length / 2);
    return told(LAUNCHRAMP_DONE, 0, 0);
}

static void append(struct plain_ring *to, struct plain_point p)
{
    to->at[to->n++] = p;
}

/* Appends the vertices of a ring from vertex i forward to vertex j, both included. */
static void append_run(struct plain_ring *to, const struct plain_ring *from, size_t i, size_t j)
{
    append(to, from->at[i]);
    while (i != j) {
        i = next(i, from->n);
        append(to, from->at[i]);
    }
}

static void copy_ring(struct plain_ring *to, const struct plain_ring *from)
{
    to->n = from->n;
    memcpy(to->at, from->at, from->n * sizeof from->at[0]);
}

static struct plain_point point_of(const int32_t *list, size_t i)
{
    struct plain_point p = {list[2 * i], list[2 * i + 1]};
    return p;
}

static void divide(struct plain_ring *old, struct plain_ring *made, size_t i, size_t j, const int32_t *path, size_t k)
{
    static struct plain_ring one;
    one.n = 0;
    made->n = 0;
    append_run(&one, old, i, j);
    for (size_t t = k; t > 0; t--)
        append(&one, point_of(path, t - 1));
    append_run(made, old, j, i);
    for (size_t t = 0; t < k; t++)
        append(made, point_of(path, t));
    copy_ring(old, &one);
}

struct plain_answer plain_split(struct plain_register *g, size_t d, size_t i, size_t j, const int32_t *path, size_t length)
{
    size_t k = length / 2, e = 0;
    if (g->outline.n == 0)
        return refused(NO_OUTLINE);
    if (!in_use(g, d))
        return refused(BAD_NUMBER);
    size_t n = g->district[d].n;
    if (i >= n || j >= n || i == j)
        return refused(BAD_INDEX);
    if (length % 2 == 1)
        return refused(NO_RING);
    if (some_beyond(path, length))
        return refused(BEYOND_GRID);
    size_t forward = (j + n - i) % n;
    if (forward + 1 + k < PLAIN_FEWEST_VERTICES || n - forward + 1 + k < PLAIN_FEWEST_VERTICES)
        return refused(TOO_FEW);
    while (in_use(g, e))
        e++;
    if (e == PLAIN_NUMBERS)
        return refused(NUMBERS_IN_USE);
    if (plain_total(g) + 2 + 2 * k > PLAIN_MOST_VERTICES)
        return refused(NO_ROOM);
    divide(&g->district[d], &g->district[e], i, j, path, k);
    return told(LAUNCHRAMP_DONE, e, 0);
}

static bool matches(const struct plain_ring *A, size_t a, const struct plain_ring *B, size_t b, size_t k)
{
    if (k < 1 || k >= A->n || k >= B->n)
        return false;
    for (size_t t = 0; t <= k; t++)
        if (!same_point(A->at[(a + t) % A->n], B->at[(b + B->n - t) % B->n]))
            return false;
    return true;
}

/* A becomes A(a+k) .. A(a), then B(b+1) .. B(b-k-1), and B goes. */
static void join(struct plain_ring *A, size_t a, struct plain_ring *B, size_t b, size_t k)
{
    static struct plain_ring result;
    result.n = 0;
    append_run(&result, A, (a + k) % A->n, a);
    if (B->n > k + 1)
        append_run(&result, B, (b + 1) % B->n, (b + B->n - k - 1) % B->n);
    copy_ring(A, &result);
    B->n = 0;
}

struct plain_answer plain_merge(struct plain_register *g, size_t kept, size_t a, size_t gone, size_t b, size_t k)
{
    if (g->outline.n == 0)
        return refused(NO_OUTLINE);
    if (!in_use(g, kept) || !in_use(g, gone))
        return refused(BAD_NUMBER);
    if (kept == gone)
        return refused(SAME_DISTRICT);
    struct plain_ring *A = &g->district[kept], *B = &g->district[gone];
    if (a >= A->n || b >= B->n)
        return refused(BAD_INDEX);
    if (!matches(A, a, B, b, k))
        return refused(NO_MATCH);
    if (A->n + B->n - 2 * k < PLAIN_FEWEST_VERTICES)
        return refused(TOO_FEW);
    join(A, a, B, b, k);
    return told(LAUNCHRAMP_DONE, kept, 0);
}

/* On the ring of district d, at this place of it. */
static struct plain_answer on_border(size_t d, struct plain_answer place)
{
    struct plain_answer answer = told(LAUNCHRAMP_BORDER, d, 0);
    answer.values[LAUNCHRAMP_VALUE_ON] = place.kind;
    answer.values[LAUNCHRAMP_VALUE_LOWEST] = place.values[0];
    answer.values[LAUNCHRAMP_VALUE_HIGHEST] = place.values[1];
    return answer;
}

static struct plain_answer sorted(const struct plain_register *g, struct plain_point r)
{
    size_t lowest = 0, many = 0;
    for (size_t d = 0; d < PLAIN_NUMBERS; d++) {
        if (!in_use(g, d))
            continue;
        struct plain_answer place = located(g->district[d].at, g->district[d].n, r);
        if (place.kind != LAUNCHRAMP_OFF)
            return on_border(d, place);
        if (place.values[0] != 0 && many++ == 0)
            lowest = d;
    }
    if (many == 0)
        return told(LAUNCHRAMP_NONE, 0, 0);
    return many == 1 ? told(LAUNCHRAMP_ONE, lowest, 0) : told(LAUNCHRAMP_SEVERAL, lowest, many);
}

struct plain_answer plain_assign(const struct plain_register *g, int32_t x, int32_t y)
{
    struct plain_point r = {x, y};
    if (g->outline.n == 0)
        return refused(NO_OUTLINE);
    if (beyond(x) || beyond(y))
        return refused(BEYOND_GRID);
    return sorted(g, r);
}

static void tell(uint64_t *numbers, struct plain_answer answer)
{
    numbers[0] = answer.kind;
    memcpy(numbers + 1, answer.values, sizeof answer.values);
}

/* How many numbers tell an answer to one of many reports. */
#define EACH (1 + LAUNCHRAMP_VALUES)

static struct plain_answer judge_all(const struct plain_register *g, size_t length, size_t answers_length)
{
    if (g->outline.n == 0)
        return refused(NO_OUTLINE);
    if (length % 2 == 1)
        return refused(NO_RING);
    return EACH * (length / 2) > answers_length ? refused(LIST_TOO_SHORT) : told(LAUNCHRAMP_DONE, 0, 0);
}

struct plain_answer plain_assign_all(const struct plain_register *g, const int32_t *points, size_t length, uint64_t *answers,
                                     size_t answers_length)
{
    struct plain_answer whole = judge_all(g, length, answers_length);
    for (size_t i = 0; i < length / 2 && whole.kind == LAUNCHRAMP_DONE; i++)
        tell(answers + EACH * i, plain_assign(g, points[2 * i], points[2 * i + 1]));
    return whole;
}

struct plain_answer plain_assign_all_counted(const struct plain_register *g, const int32_t *points, size_t length, uint64_t *answers,
                                             size_t answers_length, uint32_t *counts)
{
    struct plain_answer whole = judge_all(g, length, answers_length);
    for (size_t i = 0; i < length / 2 && whole.kind == LAUNCHRAMP_DONE; i++)
        tell(answers + EACH * i, plain_count(counts, plain_assign(g, points[2 * i], points[2 * i + 1])));
    return whole;
}

struct plain_answer plain_place(struct exact easting, struct exact northing, struct plain_point *point)
{
    if (!easting.finite || !northing.finite)
        return refused(NOT_FINITE);
    if (beyond(easting.millimetres) || beyond(northing.millimetres))
        return refused(BEYOND_GRID);
    point->x = (int32_t)easting.millimetres;
    point->y = (int32_t)northing.millimetres;
    return told(LAUNCHRAMP_DONE, 0, 0);
}

struct plain_answer plain_assign_fix(const struct plain_register *g, double easting, double northing)
{
    struct plain_point r;
    if (g->outline.n == 0)
        return refused(NO_OUTLINE);
    struct plain_answer placed = plain_place(exact_of(easting), exact_of(northing), &r);
    return placed.kind == LAUNCHRAMP_REFUSED ? placed : sorted(g, r);
}

struct plain_answer plain_assign_missing(const struct plain_register *g)
{
    return refused(g->outline.n == 0 ? NO_OUTLINE : MISSING);
}

static uint32_t *count_of(uint32_t *counts, struct plain_answer sorted)
{
    switch (sorted.kind) {
    case LAUNCHRAMP_BORDER:
        return &counts[LAUNCHRAMP_COUNT_BORDER];
    case LAUNCHRAMP_NONE:
        return &counts[LAUNCHRAMP_COUNT_NONE];
    case LAUNCHRAMP_SEVERAL:
        return &counts[LAUNCHRAMP_COUNT_SEVERAL];
    default:
        return &counts[sorted.values[0]];
    }
}

struct plain_answer plain_count(uint32_t *counts, struct plain_answer sorted)
{
    if (sorted.kind == LAUNCHRAMP_REFUSED)
        return sorted;
    uint32_t *count = count_of(counts, sorted);
    if (*count == UINT32_MAX)
        return refused(COUNT_FULL);
    ++*count;
    return sorted;
}

static uint64_t first_place(const uint32_t *runs, size_t d)
{
    return runs[PLACES + d];
}

static uint64_t size(const uint32_t *runs, size_t d)
{
    return runs[SIZES + d];
}

static bool allowed(uint64_t n)
{
    return n == 0 || (PLAIN_FEWEST_VERTICES <= n && n <= PLAIN_MOST_VERTICES);
}

static bool sizes_allowed(const uint32_t *runs)
{
    for (size_t d = 0; d < PLAIN_NUMBERS; d++)
        if (!allowed(size(runs, d)))
            return false;
    return allowed(runs[0]);
}

/* Lays a run on the places it takes; false where it leaves the store or a place is taken. */
static bool laid(bool *taken, uint64_t from, uint64_t n)
{
    for (uint64_t place = from; place < from + n; place++) {
        if (place >= PLAIN_MOST_VERTICES || taken[place])
            return false;
        taken[place] = true;
    }
    return true;
}

/* Whether all runs can be laid and take the first places with no gap; then `total` is how many those are. */
static bool packed(const uint32_t *runs, uint64_t *total)
{
    bool taken[PLAIN_MOST_VERTICES] = {false};
    *total = 0;
    for (size_t d = 0; d < PLAIN_NUMBERS; d++) {
        if (!laid(taken, first_place(runs, d), size(runs, d)))
            return false;
        *total += size(runs, d);
    }
    for (uint64_t place = 0; place < *total; place++)
        if (!taken[place])
            return false;
    return true;
}

bool plain_lengths_right(const struct lists *l)
{
    for (enum column c = OUTLINE_X; c < COLUMNS; c++)
        if (l->column_length[c] != LAUNCHRAMP_COLUMN_LENGTH)
            return false;
    return l->runs_length == LAUNCHRAMP_RUNS_LENGTH;
}

bool plain_well_formed(const struct lists *l)
{
    uint64_t total;
    if (!plain_lengths_right(l) || !sizes_allowed(l->runs) || !packed(l->runs, &total) || (l->runs[0] == 0 && total > 0))
        return false;
    return !some_beyond(l->column[OUTLINE_X], l->runs[0]) && !some_beyond(l->column[OUTLINE_Y], l->runs[0]) &&
           !some_beyond(l->column[STORE_X], total) && !some_beyond(l->column[STORE_Y], total);
}

static void read_ring(struct plain_ring *ring, const int32_t *xs, const int32_t *ys, size_t n)
{
    ring->n = n;
    for (size_t i = 0; i < n; i++) {
        ring->at[i].x = xs[i];
        ring->at[i].y = ys[i];
    }
}

/* Where district d's ring begins in both columns of the store. The first place of an unused number has no meaning. */
static size_t beginning(const uint32_t *runs, size_t d)
{
    return size(runs, d) > 0 ? first_place(runs, d) : 0;
}

void plain_read(struct plain_register *g, const struct lists *l)
{
    read_ring(&g->outline, l->column[OUTLINE_X], l->column[OUTLINE_Y], l->runs[0]);
    for (size_t d = 0; d < PLAIN_NUMBERS; d++) {
        size_t from = beginning(l->runs, d);
        read_ring(&g->district[d], l->column[STORE_X] + from, l->column[STORE_Y] + from, size(l->runs, d));
    }
}

static bool same_ring(const struct plain_ring *ring, const int32_t *xs, const int32_t *ys, uint64_t n)
{
    if (ring->n != n)
        return false;
    for (size_t i = 0; i < n; i++)
        if (ring->at[i].x != xs[i] || ring->at[i].y != ys[i])
            return false;
    return true;
}

bool plain_same(const struct plain_register *g, const struct lists *l)
{
    for (size_t d = 0; d < PLAIN_NUMBERS; d++) {
        size_t from = beginning(l->runs, d);
        if (!same_ring(&g->district[d], l->column[STORE_X] + from, l->column[STORE_Y] + from, size(l->runs, d)))
            return false;
    }
    return same_ring(&g->outline, l->column[OUTLINE_X], l->column[OUTLINE_Y], l->runs[0]);
}
