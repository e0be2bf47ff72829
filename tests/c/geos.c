/* What geos.h promises. */
#include "geos.h"

#include "held.h"

#include <geos_c.h>
#include <stdarg.h>
#include <stdio.h>
#include <stdlib.h>

/* GEOS's own default. */
#define NODE_CAPACITY 10

struct district {
    size_t number;
    GEOSGeometry *polygon;
    const GEOSPreparedGeometry *prepared;
};

struct geos_town {
    GEOSSTRtree *tree;
    size_t many;
    struct district district[DISTRICTS];
};

const char *geos_version(void)
{
    return GEOSversion();
}

static void fail(const char *format, ...)
{
    va_list details;
    va_start(details, format);
    vprintf(format, details);
    va_end(details);
    printf("\n");
    exit(1);
}

static GEOSGeometry *polygon(const int32_t *x, const int32_t *y, size_t n)
{
    GEOSCoordSequence *closed = GEOSCoordSeq_create((unsigned)n + 1, 2);
    for (size_t i = 0; i <= n; i++)
        GEOSCoordSeq_setXY(closed, (unsigned)i, x[i % n], y[i % n]);
    return GEOSGeom_createPolygon(GEOSGeom_createLinearRing(closed), NULL, 0);
}

static void add_district(struct geos_town *town, const launchramp_register *held, size_t d)
{
    struct district *district = &town->district[town->many++];
    size_t place = held_place(held, d);
    district->number = d;
    district->polygon = polygon(&held->store_x[place], &held->store_y[place], held_size(held, d));
    district->prepared = GEOSPrepare(district->polygon);
    GEOSSTRtree_insert(town->tree, district->polygon, district);
}

struct geos_town *geos_make(const launchramp_register *held)
{
    struct geos_town *town = malloc(sizeof *town);
    if (town == NULL)
        fail("there is no memory for GEOS");
    initGEOS(NULL, fail);
    town->tree = GEOSSTRtree_create(NODE_CAPACITY);
    town->many = 0;
    for (size_t d = 0; d < DISTRICTS; d++)
        if (held_size(held, d) > 0)
            add_district(town, held, d);
    return town;
}

void geos_free(struct geos_town *town)
{
    GEOSSTRtree_destroy(town->tree);
    for (size_t k = 0; k < town->many; k++) {
        GEOSPreparedGeom_destroy(town->district[k].prepared);
        GEOSGeom_destroy(town->district[k].polygon);
    }
    finishGEOS();
    free(town);
}

struct asked {
    const GEOSGeometry *point;
    struct holding holding;
};

static void ask_district(void *item, void *data)
{
    const struct district *district = item;
    struct asked *asked = data;
    if (GEOSPreparedIntersects(district->prepared, asked->point) == 1)
        holding_add(&asked->holding, district->number);
}

uint32_t geos_assign(const struct geos_town *town, int32_t x, int32_t y, uint64_t *values)
{
    GEOSGeometry *point = GEOSGeom_createPointFromXY(x, y);
    struct asked asked = {point, {0, 0}};
    GEOSSTRtree_query(town->tree, point, ask_district, &asked);
    GEOSGeom_destroy(point);
    return holding_told(asked.holding, values);
}
