/* The list that a batch of reports is lent for its answers, twice over: as the library leaves it and as plain C does. Behind its length stand numbers that no
 * call may change. And how often each kind of batch and of point came. */
#ifndef ANSWERS_H
#define ANSWERS_H

#include "plain.h"

/* Batches of up to so many points are asked at every size. */
#define ANSWERS_SMALL_BATCH 48

/* By how many numbers a list of answers is longer than it need be, at most. */
#define ANSWERS_MOST_MORE 40
#define ANSWERS_MOST (LAUNCHRAMP_ANSWER_LENGTH * PLAIN_MOST_VERTICES + ANSWERS_MOST_MORE)
#define ANSWERS_BEHIND (2 * LAUNCHRAMP_ANSWER_LENGTH)

union answers {
    uint64_t numbers[ANSWERS_MOST + ANSWERS_BEHIND];
    launchramp_answer each[(ANSWERS_MOST + ANSWERS_BEHIND) / LAUNCHRAMP_ANSWER_LENGTH];
};

extern union answers answers_got, answers_expected;

/* Before a batch: both hold the same numbers, each another one and none that an answer has. */
void answers_lend(size_t length);

/* Whether both hold the same, behind the length too. Where a batch is refused, plain C has written nothing. */
bool answers_same(size_t length);

/* Prints the first number that is not the same, if there is one. */
void answers_print(size_t length);

/* Counts a batch, whose reports are counted in a tally or not, and the points that it answers. */
void answers_count(size_t points_length, size_t answers_length, const struct plain_answer *whole, bool counted);

/* Prints what came. False, and a line that says so, where a size of batch, a kind of batch or a kind of point came too seldom to tell anything. */
bool answers_enough(void);

#endif
