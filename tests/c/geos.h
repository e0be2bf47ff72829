/* Assigning by GEOS (libgeos.org), which a user could take instead: a prepared polygon of each district, and a tree of their boxes. It
 * knows no borders: a report on one is in every district whose ring it is on. geos.c is linked where libgeos-dev is on the machine,
 * elsewhere no_geos.c. */
#ifndef GEOS_H
#define GEOS_H

#include "launchramp.h"

struct geos_town;

/* Null where GEOS is not there; then the others are not to be called. */
const char *geos_version(void);

struct geos_town *geos_make(const launchramp_register *held);
void geos_free(struct geos_town *town);

/* ONE, NONE or SEVERAL, with all values as the library tells them. */
uint32_t geos_assign(const struct geos_town *town, int32_t x, int32_t y, uint64_t *values);

#endif
