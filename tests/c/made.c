/* What made.h promises. */
#include "made.h"

#include <math.h>
#include <string.h>

#define BEYOND (PLAIN_LIMIT + 1)

struct chance made_chance;

const int32_t made_no_list[1];

struct land made_land(void)
{
    struct land near = {(int32_t)below(7), 2}, far = {100, 2};
    return once_in(4) ? LIMITS : once_in(3) ? far : near;
}

int32_t made_coordinate(struct land land)
{
    static const int32_t extremes[] = {-PLAIN_LIMIT, 1 - PLAIN_LIMIT, -1, 0, 1, PLAIN_LIMIT - 1, PLAIN_LIMIT};
    if (land.wide < PLAIN_LIMIT)
        return chance_between(&made_chance, -land.steps, land.steps) * land.wide;
    return once_in(3) ? chance_between(&made_chance, -PLAIN_LIMIT, PLAIN_LIMIT) : extremes[below(LENGTH(extremes))];
}

int32_t made_beyond(void)
{
    static const int32_t numbers[] = {BEYOND, -BEYOND, INT32_MAX, INT32_MIN};
    return numbers[below(LENGTH(numbers))];
}

void made_list_of(struct made_list *list, size_t vertices, struct land land)
{
    list->length = 2 * vertices;
    for (size_t i = 0; i < list->length; i++)
        list->at[i] = made_coordinate(land);
}

/* Puts a vertex in place i of the list, where there is room for it. */
static void insert(struct made_list *list, size_t i, int32_t x, int32_t y)
{
    int32_t *place = list->at + 2 * i;
    if (list->length + 2 > 2 * PLAIN_MOST_VERTICES)
        return;
    memmove(place + 2, place, (list->length - 2 * i) * sizeof list->at[0]);
    place[0] = x;
    place[1] = y;
    list->length += 2;
}

void made_again(struct made_list *list, bool backward)
{
    size_t n = list->length / 2;
    for (size_t i = 0; i < n; i++) {
        size_t from = backward ? n - 1 - i : i;
        insert(list, n + i, list->at[2 * from], list->at[2 * from + 1]);
    }
}

size_t made_doubled_corner(struct made_list *list)
{
    size_t i = below(list->length / 2);
    insert(list, i, list->at[2 * i], list->at[2 * i + 1]);
    return i;
}

size_t made_spike(struct made_list *list, struct land land)
{
    size_t i = made_doubled_corner(list);
    int32_t level = list->at[2 * i + 1];
    insert(list, i + 1, made_coordinate(land), once_in(2) ? level : made_coordinate(land));
    return i;
}

struct plain_point made_middle(const int32_t *list, size_t length, size_t i)
{
    const int32_t *p = list + 2 * i, *q = list + (2 * i + 2) % length;
    struct plain_point middle = {(int32_t)(((int64_t)p[0] + q[0]) / 2), (int32_t)(((int64_t)p[1] + q[1]) / 2)};
    return middle;
}

struct plain_point made_point(const int32_t *list, size_t length, struct land land)
{
    struct plain_point r = {made_coordinate(land), made_coordinate(land)};
    size_t n = length / 2;
    if (n == 0 || once_in(3))
        return r;
    size_t i = below(n);
    r.x = list[2 * i];
    r.y = list[2 * i + 1];
    if (!once_in(4))
        r = made_middle(list, 2 * n, i);
    if (once_in(4) && r.x < PLAIN_LIMIT)
        r.x++;
    if (once_in(4) && r.y < PLAIN_LIMIT)
        r.y++;
    return r;
}

/* The lists of the last call that was made. */
static struct made_list ring, path, points;

size_t made_district(const struct plain_register *g)
{
    size_t d = below(PLAIN_NUMBERS);
    for (size_t t = 0; t < PLAIN_NUMBERS && g->district[d].n == 0; t++)
        d = (d + 1) % PLAIN_NUMBERS;
    return d;
}

/* Another number than d that is used, if there is one. */
static size_t another_district(const struct plain_register *g, size_t d)
{
    size_t e = d;
    for (size_t t = 0; t < 8 && e == d; t++)
        e = made_district(g);
    return e;
}

static size_t spoiled_number(size_t d)
{
    const size_t wrong[] = {PLAIN_NUMBERS, PLAIN_NUMBERS - 1, below(PLAIN_NUMBERS), PLAIN_NUMBERS + d,    d + ((size_t)1 << 32),
                            d + 256,       SIZE_MAX,          SIZE_MAX / 2,         SIZE_MAX - below(99), d | (size_t)1 << 63};
    return wrong[below(LENGTH(wrong))];
}

static size_t spoiled_index(size_t i, size_t n)
{
    const size_t wrong[] = {n, n + 1, i + n, i + ((size_t)1 << 32), i | (size_t)1 << 63, SIZE_MAX, SIZE_MAX / 2, SIZE_MAX - below(99)};
    return wrong[below(LENGTH(wrong))];
}

static void spoil_path(void)
{
    if (once_in(2) || path.length == 0)
        path.length++;
    if (once_in(2))
        path.at[below(path.length)] = made_beyond();
}

/* How many points a path has: mostly few; now and then more than the store has places, one more than fit in it, or as many as fit where those
 * are not too many to keep small registers small. */
static size_t path_points(const struct plain_register *g)
{
    size_t too_many = (PLAIN_MOST_VERTICES - plain_total(g)) / 2;
    if (!once_in(30))
        return below(4);
    if (once_in(8))
        return PLAIN_MOST_VERTICES + below(2);
    return once_in(2) || too_many > 200 || too_many == 0 ? too_many + below(2) : too_many - 1;
}

static struct call make_split(const struct plain_register *g, struct land land)
{
    size_t d = made_district(g), n = g->district[d].n;
    made_list_of(&path, path_points(g), land);
    if (once_in(12))
        spoil_path();
    size_t i = below(n), j = once_in(20) || n < 2 ? i : (i + 1 + below(n - 1)) % n;
    struct call call = {.which = SPLIT, .number = {d, i, j}, .list = path.at, .length = path.length};
    if (once_in(20))
        call.number[0] = spoiled_number(d);
    if (once_in(20))
        call.number[1] = spoiled_index(i, n);
    if (once_in(20))
        call.number[2] = spoiled_index(j, n);
    return call;
}

static bool meet(const struct plain_ring *A, size_t a, const struct plain_ring *B, size_t b)
{
    struct plain_point p = A->at[a % A->n], q = B->at[b % B->n];
    return p.x == q.x && p.y == q.y;
}

/* Along how many edges A from vertex a forward is B from vertex b backward, at most. */
static size_t shared_edges(const struct plain_ring *A, size_t a, const struct plain_ring *B, size_t b)
{
    size_t k = 0;
    while (k < A->n && k < B->n && meet(A, a + k, B, b + B->n - k))
        k++;
    return k == 0 ? 0 : k - 1;
}

/* Looks for a border between two districts and puts it in the call; rings that are too long to try all pairs of vertices are left. */
static bool find_border(const struct plain_register *g, struct call *call)
{
    const struct plain_ring *A = &g->district[call->number[0]], *B = &g->district[call->number[2]];
    size_t from = below(A->n);
    if (A->n * B->n > 400)
        return false;
    for (size_t t = 0; t < A->n * B->n; t++) {
        size_t a = (from + t / B->n) % A->n, b = t % B->n, k = shared_edges(A, a, B, b);
        if (k > 0) {
            call->number[1] = a;
            call->number[3] = b;
            call->number[4] = once_in(2) ? k : 1 + below(k);
            return true;
        }
    }
    return false;
}

size_t made_size_of(const struct plain_register *g, size_t d)
{
    return d < PLAIN_NUMBERS ? g->district[d].n : 0;
}

static void spoil_merge(const struct plain_register *g, struct call *call)
{
    size_t *number = call->number;
    switch (below(7)) {
    case 0:
        number[0] = spoiled_number(number[0]);
        return;
    case 1:
        number[2] = once_in(2) ? number[0] : spoiled_number(number[2]);
        return;
    case 2:
        number[0] = number[2] = spoiled_number(number[2]);
        return;
    case 3:
        number[1] = spoiled_index(number[1], made_size_of(g, number[0]));
        return;
    case 4:
        number[3] = spoiled_index(number[3], made_size_of(g, number[2]));
        return;
    case 5:
        number[4] = once_in(3) ? 0 : spoiled_index(number[4], made_size_of(g, number[once_in(2) ? 0 : 2]));
        return;
    default:
        number[4]++;
    }
}

/* The merge that undoes the last split, where there was one. */
static struct call undoing;

static struct call make_merge(const struct plain_register *g)
{
    size_t kept = made_district(g);
    struct call call = {.which = MERGE, .number = {kept, 0, another_district(g, kept), 0, 1}, .list = made_no_list};
    if (undoing.which == MERGE && once_in(2))
        call = undoing;
    else
        for (size_t t = 0; t < 8 && !find_border(g, &call); t++)
            call.number[2] = another_district(g, kept);
    for (size_t t = 0; t < 2; t++)
        if (once_in(8))
            spoil_merge(g, &call);
    return call;
}

double made_metres(int32_t millimetres)
{
    return millimetres / 1000.0;
}

/* A receiver's value: near a coordinate, so that a half or less of a millimetre may decide, or one that has no place on the grid. */
static double receivers_value(int32_t coordinate)
{
    static const double odd[] = {NAN, -NAN, INFINITY, -INFINITY, 1e300, -1e300, 4e-320, -0.0, 1000000.0005, 1000000.0006, -1000000.0006};
    switch (below(8)) {
    case 0:
        return odd[below(LENGTH(odd))];
    case 1:
        return made_metres(coordinate) + (once_in(2) ? 0.0005 : -0.0005);
    case 2:
        return made_metres(coordinate) + chance_between(&made_chance, -PLAIN_LIMIT, PLAIN_LIMIT) * 1e-12;
    default:
        return made_metres(coordinate);
    }
}

/* Near some district's ring, anywhere on the land, or beyond the grid. */
static struct plain_point report_point(const struct plain_register *g, struct land land)
{
    const struct plain_ring *near = &g->district[made_district(g)];
    struct plain_point r = made_point((const int32_t *)near->at, 2 * near->n, land);
    if (once_in(40))
        r.x = made_beyond();
    if (once_in(40))
        r.y = made_beyond();
    return r;
}

static struct call make_report(enum which which, const struct plain_register *g, struct land land)
{
    struct plain_point r = report_point(g, land);
    struct call call = {.which = which, .list = made_no_list, .x = r.x, .y = r.y};
    call.easting = receivers_value(call.x);
    call.northing = receivers_value(call.y);
    return call;
}

/* So many answers' numbers exactly, some more, or too few. */
static size_t answers_room(size_t many)
{
    const size_t exact = LAUNCHRAMP_ANSWER_LENGTH * many;
    if (once_in(12) && many > 0)
        return once_in(2) ? exact - 1 : below(exact);
    return once_in(2) ? exact : exact + 1 + below(ANSWERS_MOST_MORE);
}

struct call made_batch(enum which which, const struct plain_register *g, struct land land, size_t many)
{
    points.length = 2 * many + (once_in(12) ? 1 : 0);
    for (size_t i = 0; 2 * i < points.length; i++) {
        struct plain_point r = report_point(g, land);
        /* A place's x with another's y is beside rings, and level with a bound of one. */
        points.at[2 * i] = once_in(4) ? report_point(g, land).x : r.x;
        points.at[2 * i + 1] = r.y;
    }
    struct call call = {.which = which, .list = points.at, .length = points.length, .answers_length = answers_room(many)};
    return call;
}

/* Mostly a small batch. */
static size_t batch_size(void)
{
    return once_in(200) ? below(PLAIN_MOST_VERTICES + 1) : below(ANSWERS_SMALL_BATCH + 1);
}

struct call made_founding(struct land land, size_t vertices)
{
    made_list_of(&ring, once_in(20) ? PLAIN_MOST_VERTICES + 1 : vertices, land);
    if (once_in(6))
        made_again(&ring, once_in(3));
    if (once_in(6))
        made_doubled_corner(&ring);
    if (once_in(6))
        made_spike(&ring, land);
    if (once_in(4))
        ring.length = below(6);
    if (once_in(6))
        ring.length++;
    if (once_in(6))
        ring.at[below(ring.length)] = made_beyond();
    struct call call = {.which = FOUND, .list = ring.at, .length = ring.length};
    return call;
}

struct call made_call(enum which which, const struct plain_register *g, struct land land)
{
    struct call well_formed = {.which = WELL_FORMED, .list = made_no_list};
    switch (which) {
    case FOUND:
        return made_founding(land, PLAIN_FEWEST_VERTICES + below(6));
    case SPLIT:
        return make_split(g, land);
    case MERGE:
        return make_merge(g);
    case WELL_FORMED:
        return well_formed;
    case ASSIGN_ALL:
    case ASSIGN_ALL_COUNTED:
        return made_batch(which, g, land, batch_size());
    default:
        return make_report(which, g, land);
    }
}

/* The pieces' border begins at the last vertex of piece one's part of the ring. */
struct call made_merge_back(const struct call *split, size_t n, size_t made)
{
    size_t a = (split->number[2] + n - split->number[1]) % n;
    struct call merge = {.which = MERGE, .number = {split->number[0], a, made, 0, split->length / 2 + 1}, .list = made_no_list};
    return merge;
}

void made_forget(void)
{
    undoing.which = LOCATE;
}

void made_remember(const struct call *call, size_t vertices, struct plain_answer answer)
{
    if (answer.kind != LAUNCHRAMP_DONE || (call->which != SPLIT && call->which != MERGE))
        return;
    made_forget();
    if (call->which == SPLIT)
        undoing = made_merge_back(call, vertices, answer.values[0]);
}
