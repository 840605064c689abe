/* GEOS's context, which all its calls are given. */
#ifndef CONTEXT_H
#define CONTEXT_H

#include <geos_c.h>

void start_geos(void);
GEOSContextHandle_t geos(void);

#endif
