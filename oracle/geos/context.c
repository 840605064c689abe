/* GEOS's context, which all its calls are given. */
#include "context.h"
#include <stdarg.h>
#include <stdio.h>

static GEOSContextHandle_t context;

static void failed(const char *fmt, ...)
{
    va_list ap;
    va_start(ap, fmt);
    vfprintf(stderr, fmt, ap);
    va_end(ap);
    fputc('\n', stderr);
}

void start_geos(void)
{
    context = GEOS_init_r();
    GEOSContext_setErrorHandler_r(context, failed);
}

GEOSContextHandle_t geos(void) { return context; }
