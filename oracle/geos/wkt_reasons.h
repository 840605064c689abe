/* Why our library refuses a text that GEOS reads. */
#ifndef WKT_REASONS_H
#define WKT_REASONS_H

#include "wkt_geos.h"

/* Counts the text, which GEOS reads so, under the reason that request R-9 has to refuse it: 0 if there is none. */
int count_reason(const text *t, const GEOSGeometry *g, const reading *r, state now);

/* Each reason met, how often, and the shortest text. */
void print_reasons(void);

#endif
