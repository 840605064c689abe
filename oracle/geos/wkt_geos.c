/* GEOS's side for WKT. */
#include "wkt_geos.h"
#include <math.h>

static GEOSWKTReader *reader;
static GEOSWKTWriter *writer;

static void nothing(const char *fmt, ...) { (void)fmt; }

void start_wkt_geos(void)
{
    start_geos();
    GEOSContext_setErrorHandler_r(geos(), nothing);
    reader = GEOSWKTReader_create_r(geos());
    writer = GEOSWKTWriter_create_r(geos());
    GEOSWKTWriter_setTrim_r(geos(), writer, 1);
    GEOSWKTWriter_setRoundingPrecision_r(geos(), writer, 0);
}

GEOSGeometry *geos_read(const char *bytes) { return GEOSWKTReader_read_r(geos(), reader, bytes); }

char *geos_write(const GEOSGeometry *g) { return GEOSWKTWriter_write_r(geos(), writer, g); }

static int is_kind(const GEOSGeometry *g, uint32_t kind)
{
    static const int types[] = {GEOS_POINT, GEOS_LINESTRING, GEOS_POLYGON};
    return GEOSGeomTypeId_r(geos(), g) == types[kind - 1] && GEOSHasZ_r(geos(), g) == 0 &&
           (kind != POLYGON || GEOSGetNumInteriorRings_r(geos(), g) == 0);
}

static const GEOSCoordSequence *sequence(const GEOSGeometry *g)
{
    int ring = GEOSGeomTypeId_r(geos(), g) == GEOS_POLYGON;
    return GEOSGeom_getCoordSeq_r(geos(), ring ? GEOSGetExteriorRing_r(geos(), g) : g);
}

unsigned pairs_in(const GEOSGeometry *g)
{
    unsigned count;
    return GEOSCoordSeq_getSize_r(geos(), sequence(g), &count) ? count : 0;
}

int is_shape(const GEOSGeometry *g, const shape *s)
{
    unsigned n = (unsigned)(s->list.numbers / 2), pairs = s->kind == POLYGON ? n + 1 : n;
    if (!is_kind(g, s->kind) || pairs_in(g) != pairs)
        return 0;
    for (unsigned k = 0; k < pairs; k++) {
        double x, y;
        spot p = s->list.corners[k % n];
        if (!GEOSCoordSeq_getXY_r(geos(), sequence(g), k, &x, &y) || x != p.x || y != p.y)
            return 0;
    }
    return 1;
}

int is_far(const GEOSGeometry *g)
{
    for (unsigned k = 0; k < pairs_in(g); k++) {
        double x, y;
        if (GEOSCoordSeq_getXY_r(geos(), sequence(g), k, &x, &y) && (fabs(x) > LIMIT || fabs(y) > LIMIT))
            return 1;
    }
    return 0;
}
