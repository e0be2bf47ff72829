/* What forms.h promises. */
#include "forms.h"

#define LIMIT 1000000000
#define FEWEST_VERTICES 3
#define MOST_VERTICES 2048
#define NO_RING 4
#define BEYOND_GRID 5

static uint32_t told(uint64_t *values, uint32_t kind, uint64_t first, uint64_t second)
{
    values[0] = first;
    values[1] = second;
    for (size_t k = 2; k < LAUNCHRAMP_VALUES; k++)
        values[k] = 0;
    return kind;
}

static uint32_t off(uint64_t *values, int64_t turns)
{
    return turns < 0 ? told(values, LAUNCHRAMP_OFF, (uint64_t)-turns, 1) : told(values, LAUNCHRAMP_OFF, (uint64_t)turns, 0);
}

static bool beyond(int32_t coordinate)
{
    return (coordinate < -LIMIT) | (LIMIT < coordinate);
}

/* No early end, so that the compiler can use vectors. */
static bool some_beyond(const int32_t *list, size_t length)
{
    bool found = false;
    for (size_t i = 0; i < length; i++)
        found |= beyond(list[i]);
    return found;
}

/* The rules' number of the refusal, or 0. */
static uint64_t refusal(const int32_t *ring, size_t ring_length, int32_t x, int32_t y)
{
    size_t n = ring_length / 2;
    if (ring_length % 2 == 1 || n < FEWEST_VERTICES || n > MOST_VERTICES)
        return NO_RING;
    return some_beyond(ring, ring_length) || beyond(x) || beyond(y) ? BEYOND_GRID : 0;
}

static int64_t determinant(int64_t px, int64_t py, int64_t qx, int64_t qy, int64_t x, int64_t y)
{
    return (px - x) * (qy - y) - (qx - x) * (py - y);
}

static bool is_vertex(const int32_t *ring, size_t i, int32_t x, int32_t y)
{
    return ring[2 * i] == x && ring[2 * i + 1] == y;
}

static bool between(int32_t a, int32_t p, int32_t q)
{
    return p < q ? p <= a && a <= q : q <= a && a <= p;
}

static bool is_on_edge(const int32_t *ring, size_t n, size_t i, int32_t x, int32_t y)
{
    const int32_t *p = &ring[2 * i], *q = &ring[2 * (i + 1 < n ? i + 1 : 0)];
    return between(x, p[0], q[0]) && between(y, p[1], q[1]) && determinant(p[0], p[1], q[0], q[1], x, y) == 0;
}

/* The point is vertex v and no earlier one. */
static uint32_t at_vertex(const int32_t *ring, size_t n, size_t v, int32_t x, int32_t y, uint64_t *values)
{
    size_t last = n - 1;
    while (!is_vertex(ring, last, x, y))
        last--;
    return told(values, LAUNCHRAMP_VERTEX, v, last);
}

/* The point is on edge i and on no earlier one, and is no vertex up to the end of that edge. */
static uint32_t on_edge(const int32_t *ring, size_t n, size_t i, int32_t x, int32_t y, uint64_t *values)
{
    size_t last = n - 1;
    for (size_t v = i + 2; v < n; v++)
        if (is_vertex(ring, v, x, y))
            return at_vertex(ring, n, v, x, y, values);
    while (!is_on_edge(ring, n, last, x, y))
        last--;
    return told(values, LAUNCHRAMP_EDGE, i, last);
}

/* In line always, so that paper_locate comes to the same instructions as if this stood there; left to gcc it comes to others. */
__attribute__((always_inline)) static inline uint32_t paper(const int32_t *ring, size_t n, int32_t x, int32_t y, uint64_t *values)
{
    int32_t px = ring[0], py = ring[1];
    int64_t turns = 0;
    if (px == x && py == y)
        return at_vertex(ring, n, 0, x, y, values);
    for (size_t i = 0; i < n; i++) {
        size_t ahead = i + 1 < n ? i + 1 : 0;
        int32_t qx = ring[2 * ahead], qy = ring[2 * ahead + 1];
        if (qy == y) {
            if (qx == x)
                return at_vertex(ring, n, ahead, x, y, values);
            if (py == y && (qx > x) == (px < x))
                return on_edge(ring, n, i, x, y, values);
        }
        if ((py < y) != (qy < y)) {
            if (px >= x && qx > x) {
                turns += qy > py ? 1 : -1;
            } else if (px >= x || qx > x) {
                int64_t d = determinant(px, py, qx, qy, x, y);
                if (d == 0)
                    return on_edge(ring, n, i, x, y, values);
                if ((d > 0) == (qy > py))
                    turns += qy > py ? 1 : -1;
            }
        }
        px = qx;
        py = qy;
    }
    return off(values, turns);
}

uint32_t paper_on_ring(const int32_t *ring, size_t n, int32_t x, int32_t y, uint64_t *values)
{
    return paper(ring, n, x, y, values);
}

uint32_t paper_locate(const int32_t *ring, size_t ring_length, int32_t x, int32_t y, uint64_t *values)
{
    uint64_t refused = refusal(ring, ring_length, x, y);
    if (refused != 0)
        return told(values, LAUNCHRAMP_REFUSED, refused, 0);
    return paper(ring, ring_length / 2, x, y, values);
}

#define BY_DETERMINANT 2

/* From the quadrant of the row to that of the column. */
static const int8_t TURNS[4][4] = {
    {0, 1, BY_DETERMINANT, -1},
    {-1, 0, 1, BY_DETERMINANT},
    {BY_DETERMINANT, -1, 0, 1},
    {1, BY_DETERMINANT, -1, 0},
};

static unsigned quadrant(int32_t px, int32_t py, int32_t x, int32_t y)
{
    return ((px <= x) & (py > y)) + 2u * ((px < x) & (py <= y)) + 3u * ((px >= x) & (py < y));
}

uint32_t table_locate(const int32_t *ring, size_t ring_length, int32_t x, int32_t y, uint64_t *values)
{
    uint64_t refused = refusal(ring, ring_length, x, y);
    if (refused != 0)
        return told(values, LAUNCHRAMP_REFUSED, refused, 0);
    size_t n = ring_length / 2, edge = n, last_edge = n;
    int32_t px = ring[0], py = ring[1], quarters = 0;
    unsigned from = quadrant(px, py, x, y);
    if (px == x && py == y)
        return at_vertex(ring, n, 0, x, y, values);
    for (size_t i = 0; i < n; i++) {
        size_t ahead = i + 1 < n ? i + 1 : 0;
        int32_t qx = ring[2 * ahead], qy = ring[2 * ahead + 1];
        if (qx == x && qy == y)
            return at_vertex(ring, n, ahead, x, y, values);
        unsigned to = quadrant(qx, qy, x, y);
        int32_t turn = TURNS[from][to];
        if (turn == BY_DETERMINANT) {
            int64_t d = determinant(px, py, qx, qy, x, y);
            turn = d > 0 ? 2 : d < 0 ? -2 : 0;
            if (d == 0) {
                edge = edge == n ? i : edge;
                last_edge = i;
            }
        }
        quarters += turn;
        from = to;
        px = qx;
        py = qy;
    }
    return edge < n ? told(values, LAUNCHRAMP_EDGE, edge, last_edge) : off(values, quarters / 4);
}
