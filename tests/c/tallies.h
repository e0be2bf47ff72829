/* The tally at the limit of every count, and over runs of reports. */
#ifndef TALLIES_H
#define TALLIES_H

/* Each of the 67 counts by both counted calls: one below its limit it is raised, and at it the report is refused by 14; nothing else moves, and
 * a refused report moves nothing. It prints a line, and ends the program with status 1 where anything is otherwise or a count was not asked. */
void tallies_at_their_limits(void);

/* A fresh tally over the reports of one life, beside a count of the answers. */
void tallies_of_a_life(void);

#endif
