/* Batches of reports, of every size up to ANSWERS_SMALL_BATCH and of a larger one, on one register each; each of them twice, the second time counted, in a
 * tally some of whose counts are full or one below. */
#ifndef BATCHES_H
#define BATCHES_H

/* Small rings all over a land, so that an index leaves most of them out. */
void batches_on_scattered_districts(void);

void batches_on_every_make(void);

#endif
