/* Registers of every make with one thing wrong, in any of the five lists, and registers at a limit with nothing wrong. */
#ifndef DAMAGE_H
#define DAMAGE_H

/* Every kind of damage on so many registers of every make that can have it; every call is asked of each. It prints a line for each kind, and
 * ends the program with status 1 where a call takes damage for a good register or a good register for damage, where a list or a count is
 * changed, or where a kind asked nothing. */
void damage_registers(int times);

#endif
