/* One call to the library and to plain.h, compared: the answer and its values, every byte of the lists where nothing may change, and every
 * ring where something does, and then the sums of sums.h; of a batch each answer, with that of launchramp_assign or launchramp_assign_counted too. Every few
 * calls go by way of struct launchramp_register. The first difference is printed with the whole call, and ends the program with status 1. */
#ifndef BOTH_H
#define BOTH_H

#include "answers.h"
#include "plain.h"

/* A register and a tally twice over: as the library has them and in plain C. */
struct twice {
    struct lists lists;
    /* What the lists held before the call. */
    struct lists before;
    /* The lists are not well-formed, and `rows` says nothing. */
    bool damaged;
    struct plain_register rows;
    /* Every ring came by accepted calls, so that the sums of sums.h hold. */
    bool by_calls;
    uint32_t counts[LAUNCHRAMP_COUNTS + LISTS_SPARE];
    uint32_t plain_counts[LAUNCHRAMP_COUNTS + LISTS_SPARE];
};

enum which {
    LOCATE,
    WELL_FORMED,
    FOUND,
    SPLIT,
    MERGE,
    ASSIGN,
    ASSIGN_COUNTED,
    ASSIGN_FIX,
    ASSIGN_FIX_COUNTED,
    ASSIGN_MISSING,
    ASSIGN_ALL,
    ASSIGN_ALL_COUNTED,
    CALLS
};

struct call {
    enum which which;
    /* A split's d, i, j; a merge's kept, a, gone, b, k. */
    size_t number[5];
    /* A ring, a path or a batch's points. */
    const int32_t *list;
    size_t length;
    /* How many numbers a batch's answers are lent: at most ANSWERS_MOST. */
    size_t answers_length;
    int32_t x, y;
    double easting, northing;
};

/* As launchramp.h names the calls, without the library's name before them. */
extern const char *const both_names[CALLS];

/* "outline x", .. */
extern const char *const both_columns[COLUMNS];

/* How many calls were made so far. */
extern uint64_t both_calls;

/* What is being asked about, told with a difference. */
extern const char *both_about;

void both_copy(struct lists *to, const struct lists *from);

/* The lists were changed from outside: whether they are well-formed, and what they hold, is read anew. `by_calls` is false then; a caller who
 * knows better sets it. */
void both_reread(struct twice *t);

/* The lists' free room was changed from outside. */
void both_remember(struct twice *t);

/* The library's tally was changed from outside. */
void both_retally(struct twice *t);

/* Makes the call; `t` is not needed for LOCATE. The answer is the one that both gave. WELL_FORMED is told as DONE or as refusal 1. */
struct plain_answer both_ask(struct twice *t, const struct call *call);

bool both_same(struct plain_answer one, struct plain_answer other);

/* Makes two calls that must have the same answer. */
void both_ask_alike(struct twice *t, const struct call *one, const struct call *other);

/* Prints how often each answer and each refusal came, and how often each call went by way of the struct. False, and a line that says so, where
 * launchramp.h names an answer that never came, or does not name one that did, or where a call never went that way. */
bool both_all_reached(void);

#endif
