/* Which column of a damaged register was harmed alone, and how. Where one never was, a library that asks nothing of that column would pass. */
#ifndef HARMS_H
#define HARMS_H

#include "both.h"

/* Counts a damaged register by how it differs from the good one that it was; harm in several lists or in the runs is left out. */
void harms_count(const struct twice *harmed, const struct twice *good);

/* Prints for each column how often it was too short, too long, and had a coordinate in use beyond the grid on either side. False, and a line that says so,
 * where one of these was too seldom to tell anything. */
bool harms_enough(void);

#endif
