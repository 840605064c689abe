/* GEOS's side for points in outlines. */
#ifndef OUTLINE_GEOS_H
#define OUTLINE_GEOS_H

#include "../outlines/outlines.h"
#include "context.h"

/* The outline's ring walked as it is given, or the other way round. */
GEOSGeometry *polygon(const outline *o, int reversed);
GEOSGeometry *point(spot p);

/* INSIDE, ON_BOUNDARY or OUTSIDE, each in its own way: from the matrix; from `contains`, `touches` and `intersects`;
 * and from these, prepared. 0 if GEOS fails, or if its answers don't go together. */
unsigned by_relate(const GEOSGeometry *outline, const GEOSGeometry *point);
unsigned by_predicates(const GEOSGeometry *outline, const GEOSGeometry *point);
unsigned by_prepared(const GEOSPreparedGeometry *outline, const GEOSGeometry *point);

#endif
