/* What splits and merges keep: at every point off all rings the winding numbers about the districts add up to that about the outline. It is
 * asked of the library alone, by launchramp_locate on the rings that the lists hold. */
#ifndef SUMS_H
#define SUMS_H

#include "both.h"

/* Asks at some points near the rings and away from them. At the first where the sum is another, prints it and answers false. */
bool sums_hold(const struct lists *l);

/* Prints how many points were asked. False, and a line that says so, where they were too few to tell anything. */
bool sums_enough(void);

#endif
