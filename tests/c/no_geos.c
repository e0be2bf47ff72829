/* In the place of geos.c where GEOS is not on the machine. */
#include "geos.h"

const char *geos_version(void)
{
    return NULL;
}

struct geos_town *geos_make(const launchramp_register *held)
{
    (void)held;
    return NULL;
}

void geos_free(struct geos_town *town)
{
    (void)town;
}

uint32_t geos_assign(const struct geos_town *town, int32_t x, int32_t y, uint64_t *values)
{
    (void)town, (void)x, (void)y, (void)values;
    return LAUNCHRAMP_REFUSED;
}
