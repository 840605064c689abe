/* GEOS's side, for points and boxes. */
#include "places.h"
#include <stdio.h>
#include <stdlib.h>
#include <string.h>

GEOSGeometry *geometry(const place *p, int clockwise)
{
    if (!p->kind)
        return GEOSGeom_createPointFromXY_r(geos(), p->x0, p->y0);
    double xs[5] = {p->x0, p->x1, p->x1, p->x0, p->x0}, ys[5] = {p->y0, p->y0, p->y1, p->y1, p->y0};
    GEOSCoordSequence *ring = GEOSCoordSeq_create_r(geos(), 5, 2);
    for (unsigned i = 0; i < 5; i++)
        GEOSCoordSeq_setXY_r(geos(), ring, i, xs[clockwise ? 4 - i : i], ys[clockwise ? 4 - i : i]);
    return GEOSGeom_createPolygon_r(geos(), GEOSGeom_createLinearRing_r(geos(), ring), NULL, 0);
}

void by_geos(const GEOSGeometry *a, const GEOSGeometry *b, char letters[10])
{
    char *said = GEOSRelate_r(geos(), a, b);
    if (!said || strlen(said) != 9) {
        fprintf(stderr, "GEOS gave no matrix\n");
        exit(2);
    }
    memcpy(letters, said, 10);
    GEOSFree_r(geos(), said);
}
