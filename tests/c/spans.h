/* How far apart the lowest and the highest place of an answer are. Where they were always the same, a library that tells only one of them would
 * pass; and so would one that tells another district's places, where two districts always had the same. */
#ifndef SPANS_H
#define SPANS_H

#include "both.h"

/* Counts an answer that tells places on a ring; any other is left out. */
void spans_count(const struct twice *t, const struct call *call, const struct plain_answer *answer);

/* Prints for each call how often the two places were apart and how often the same, at vertices and on edges, and how often a higher district than
 * the one that is named had the report elsewhere on its ring. False, and a line that says so, where the places were apart, or a higher district had
 * the report elsewhere, too seldom to tell anything. */
bool spans_enough(void);

#endif
