/* GEOS's side for WKT. */
#ifndef WKT_GEOS_H
#define WKT_GEOS_H

#include "../wkt/wkt.h"
#include "context.h"

/* A context that says nothing of texts that it refuses, and one reader and one writer for all texts. The writer trims
 * and rounds to whole numbers. */
void start_wkt_geos(void);

/* NULL if GEOS refuses the text. The bytes must end with a 0. */
GEOSGeometry *geos_read(const char *bytes);

/* To be freed with GEOSFree_r. */
char *geos_write(const GEOSGeometry *g);

/* Whether the geometry is this shape: its kind, its corners in order and a ring's repeat, and nothing else. */
int is_shape(const GEOSGeometry *g, const shape *s);

/* Of a point, a line or a polygon's outer ring: how many pairs, and whether a number is beyond the range. */
unsigned pairs_in(const GEOSGeometry *g);
int is_far(const GEOSGeometry *g);

#endif
