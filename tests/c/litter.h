/* Numbers without meaning in the free room of a register: no answer changes by them, and no ring. */
#ifndef LITTER_H
#define LITTER_H

#include "both.h"

/* Some numbers, anywhere in the free room. */
void litter_some(struct twice *t);

/* Registers of every make, clean and littered, asked the same calls. It prints a line for each kind of litter and ends the program with
 * status 1 where an answer or a ring differs, or where a make that has free room was never littered. */
void litter_registers(int times);

#endif
