/* The clock of the benchmarks. */
#include "timing.h"
#include <time.h>

void round_of(void (*side)(void), int calls, double *best)
{
    struct timespec from, to;
    clock_gettime(CLOCK_MONOTONIC, &from);
    side();
    clock_gettime(CLOCK_MONOTONIC, &to);
    double each = ((double)(to.tv_sec - from.tv_sec) * 1e9 + (double)(to.tv_nsec - from.tv_nsec)) / calls;
    if (*best == 0 || each < *best)
        *best = each;
}
