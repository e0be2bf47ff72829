/* Rings, points, doubles of metres and the arguments of calls, made by chance: the same from the same seed. */
#ifndef MADE_H
#define MADE_H

#include "both.h"
#include "chance.h"

#define LENGTH(array) (sizeof(array) / sizeof(array)[0])

extern struct chance made_chance;

/* For calls that are lent no list. */
extern const int32_t made_no_list[1];

static inline size_t below(size_t n)
{
    return chance_below(&made_chance, n);
}

static inline bool once_in(size_t n)
{
    return below(n) == 0;
}

/* Where coordinates are taken from: `steps` each way from 0, `wide` apart. */
struct land {
    int32_t steps, wide;
};

static const struct land LIMITS = {1, PLAIN_LIMIT};

/* The room behind the list is there for lists of wrong lengths. */
struct made_list {
    size_t length;
    int32_t at[2 * PLAIN_MOST_VERTICES + 4];
};

/* No steps: the land is one point, and every border matches every other. */
struct land made_land(void);

int32_t made_coordinate(struct land land);
int32_t made_beyond(void);
void made_list_of(struct made_list *list, size_t vertices, struct land land);

/* The next three add what there is room for in a ring of 2,048 vertices. The ring once more behind itself. */
void made_again(struct made_list *list, bool backward);

/* Some vertex once more, right behind itself: a doubled corner. Answers the index of the first of the two. */
size_t made_doubled_corner(struct made_list *list);

/* From some vertex out to a tip and back. Answers the vertex's index i: the tip is vertex i + 1, and vertex i + 2 is vertex i again. */
size_t made_spike(struct made_list *list, struct land land);

/* The middle of edge i, or the whole millimetre beside it that is nearer to 0. */
struct plain_point made_middle(const int32_t *list, size_t length, size_t i);

/* A point near a list's vertices and edges, or anywhere on the land. */
struct plain_point made_point(const int32_t *list, size_t length, struct land land);

/* A number that is used, if any is. */
size_t made_district(const struct plain_register *g);

double made_metres(int32_t millimetres);

/* The call has arguments that are mostly good for this register. Its lists stay good until the next call is made. */
struct call made_call(enum which which, const struct plain_register *g, struct land land);
struct call made_founding(struct land land, size_t vertices);

/* ASSIGN_ALL or ASSIGN_ALL_COUNTED: reports at so many points, at most PLAIN_MOST_VERTICES; now and then with half a point more, or with too short a list of
 * answers. */
struct call made_batch(enum which which, const struct plain_register *g, struct land land, size_t many);

/* The merge that undoes an accepted split of a district that had so many vertices. */
struct call made_merge_back(const struct call *split, size_t vertices, size_t made);

/* A call was answered; its district had so many vertices before. Half of the merges that are made next undo the last split. */
void made_remember(const struct call *call, size_t vertices, struct plain_answer answer);
void made_forget(void);

/* How many vertices district d has; 0 for a number that is unused or no number. */
size_t made_size_of(const struct plain_register *g, size_t d);

#endif
