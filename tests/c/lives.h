/* The lives of registers: empty, founded, then split, merged and asked about, call by call as both.h compares them. */
#ifndef LIVES_H
#define LIVES_H

#include "made.h"

/* An empty register and a made tally. */
void lives_start(struct twice *t);

/* Makes the call that was made for this register. */
struct plain_answer lives_ask(struct twice *t, enum which which, struct land land);

/* Counts that are full, nearly full, or far from it. */
void lives_make_tally(struct twice *t);

/* One life each. */
void live_small(void);
void live_with_all_numbers_in_use(void);
void live_with_a_full_store(void);

/* Founded with a doubled corner, a spike or the whole ring twice over. Before every change reports come from every vertex and from the middle of every
 * edge of some district. */
void live_with_repeated_places(void);

/* Every accepted split is taken back by a merge, which must be accepted and leave the ring that was split, from its vertex i on. */
void live_there_and_back(void);

void report_in_metres(void);

#endif
