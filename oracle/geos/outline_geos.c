/* GEOS's side for points in outlines. */
#include "outline_geos.h"
#include <string.h>

GEOSGeometry *polygon(const outline *o, int reversed)
{
    unsigned n = (unsigned)(o->numbers / 2);
    GEOSCoordSequence *ring = GEOSCoordSeq_create_r(geos(), n + 1, 2);
    for (unsigned i = 0; i <= n; i++) {
        spot c = o->corners[(reversed ? n - i : i) % n];
        GEOSCoordSeq_setXY_r(geos(), ring, i, c.x, c.y);
    }
    return GEOSGeom_createPolygon_r(geos(), GEOSGeom_createLinearRing_r(geos(), ring), NULL, 0);
}

GEOSGeometry *point(spot p) { return GEOSGeom_createPointFromXY_r(geos(), p.x, p.y); }

unsigned by_relate(const GEOSGeometry *outline, const GEOSGeometry *point)
{
    char *said = GEOSRelate_r(geos(), outline, point);
    unsigned position = 0;
    if (said && !strcmp(said, "0F2FF1FF2"))
        position = INSIDE;
    if (said && !strcmp(said, "FF20F1FF2"))
        position = ON_BOUNDARY;
    if (said && !strcmp(said, "FF2FF10F2"))
        position = OUTSIDE;
    GEOSFree_r(geos(), said);
    return position;
}

static unsigned position(int contains, int touches, int intersects)
{
    if (contains == 1 && touches == 0 && intersects == 1)
        return INSIDE;
    if (contains == 0 && touches == 1 && intersects == 1)
        return ON_BOUNDARY;
    return contains == 0 && touches == 0 && intersects == 0 ? OUTSIDE : 0;
}

unsigned by_predicates(const GEOSGeometry *outline, const GEOSGeometry *point)
{
    return position(GEOSContains_r(geos(), outline, point), GEOSTouches_r(geos(), outline, point),
                    GEOSIntersects_r(geos(), outline, point));
}

unsigned by_prepared(const GEOSPreparedGeometry *outline, const GEOSGeometry *point)
{
    return position(GEOSPreparedContains_r(geos(), outline, point), GEOSPreparedTouches_r(geos(), outline, point),
                    GEOSPreparedIntersects_r(geos(), outline, point));
}
