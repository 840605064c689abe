/* bench <INPUTS: times misonkandi_relate_outlines and GEOS in one process on the same pairs, turn by turn, and prints a
 * Markdown table. GEOS's geometries are built, and prepared, before the clock starts. The library must give GEOS's
 * letters to each pair. A time is processor time, and the median of the rounds: that bears other work beside it. bench.py
 * makes the inputs. */
#include "context.h"
#include "misonkandi.h"
#include <stdio.h>
#include <stdlib.h>
#include <string.h>
#include <time.h>

enum { PAIRS = 64, KINDS = 6, SIZES = 3, ROUNDS = 41, SIDES = 4, MOST_NUMBERS = 128 };

typedef struct {
    int numbers;
    int32_t xy[2][MOST_NUMBERS];
    GEOSGeometry *built[2];
    const GEOSPreparedGeometry *prepared;
} pair;

typedef struct {
    char kind[32];
    int corners;
    pair pairs[PAIRS];
    double times[SIDES][ROUNDS];
} group;

static group groups[SIZES][KINDS];
static volatile unsigned sink;

static GEOSGeometry *polygon(const int32_t *xy, int numbers)
{
    unsigned n = (unsigned)numbers / 2;
    GEOSCoordSequence *ring = GEOSCoordSeq_create_r(geos(), n + 1, 2);
    for (unsigned i = 0; i <= n; i++)
        GEOSCoordSeq_setXY_r(geos(), ring, i, xy[2 * (i % n)], xy[2 * (i % n) + 1]);
    return GEOSGeom_createPolygon_r(geos(), GEOSGeom_createLinearRing_r(geos(), ring), NULL, 0);
}

static void fail(const char *why)
{
    fprintf(stderr, "%s\n", why);
    exit(1);
}

static void read_pair(group *g, pair *p)
{
    if (scanf("%31s %d", g->kind, &g->corners) != 2 || g->corners > MOST_NUMBERS / 2)
        fail("no pair");
    p->numbers = 2 * g->corners;
    for (int k = 0; k < 2 * p->numbers; k++)
        if (scanf("%d", &p->xy[k / p->numbers][k % p->numbers]) != 1)
            fail("no number");
    for (int k = 0; k < 2; k++)
        p->built[k] = polygon(p->xy[k], p->numbers);
    p->prepared = GEOSPrepare_r(geos(), p->built[0]);
}

static unsigned by_library(const pair *p, uint8_t cells[9])
{
    uint64_t answer[3];
    return misonkandi_relate_outlines(p->xy[0], (size_t)p->numbers, p->xy[1], (size_t)p->numbers, cells, answer);
}

static void check(const pair *p)
{
    uint8_t cells[9];
    char *said = GEOSRelate_r(geos(), p->built[0], p->built[1]);
    if (by_library(p, cells) != 0)
        fail("the library refuses a pair");
    for (int k = 0; k < 9; k++)
        if ("F012"[cells[k]] != said[k])
            fail("the library and GEOS don't say the same");
    if (GEOSPreparedIntersects_r(geos(), p->prepared, p->built[1]) != (strncmp(said, "FF", 2) || said[3] != 'F' || said[4] != 'F'))
        fail("GEOS doesn't say the same, prepared");
    GEOSFree_r(geos(), said);
}

static void time_library(const pair *p)
{
    uint8_t cells[9];
    sink += by_library(p, cells);
    sink += cells[4];
}

static void time_relate(const pair *p)
{
    char *said = GEOSRelate_r(geos(), p->built[0], p->built[1]);
    sink += (unsigned char)said[4];
    GEOSFree_r(geos(), said);
}

static void time_prepared(const pair *p) { sink += (unsigned)GEOSPreparedIntersects_r(geos(), p->prepared, p->built[1]); }

/* Ours finds both simple at each call. */
static void time_valid(const pair *p)
{
    sink += (unsigned)GEOSisValid_r(geos(), p->built[0]) + (unsigned)GEOSisValid_r(geos(), p->built[1]);
    time_relate(p);
}

static void (*const sides[SIDES])(const pair *) = {time_library, time_relate, time_valid, time_prepared};

static double timed(const group *g, int side)
{
    struct timespec from, to;
    clock_gettime(CLOCK_PROCESS_CPUTIME_ID, &from);
    for (int k = 0; k < PAIRS; k++)
        sides[side](&g->pairs[k]);
    clock_gettime(CLOCK_PROCESS_CPUTIME_ID, &to);
    return ((double)(to.tv_sec - from.tv_sec) * 1e9 + (double)(to.tv_nsec - from.tv_nsec)) / PAIRS;
}

static int by_size(const void *x, const void *y)
{
    double a = *(const double *)x, b = *(const double *)y;
    return (a > b) - (a < b);
}

static double median(double *times)
{
    qsort(times, ROUNDS, sizeof *times, by_size);
    return times[ROUNDS / 2];
}

static void print_line(group *g)
{
    double ours = median(g->times[0]), relate = median(g->times[1]), valid = median(g->times[2]);
    for (char *c = g->kind; *c; c++)
        *c = *c == '_' ? ' ' : *c;
    printf("| %d corners, %s | %.0f | %.0f | %.2f | %.0f | %.2f | %.0f |\n", g->corners, g->kind, ours, relate, relate / ours, valid,
           valid / ours, median(g->times[3]));
}

int main(void)
{
    start_geos();
    for (int k = 0; k < SIZES * KINDS; k++)
        for (int n = 0; n < PAIRS; n++) {
            group *g = &groups[k / KINDS][k % KINDS];
            read_pair(g, &g->pairs[n]);
            check(&g->pairs[n]);
        }
    for (int round = 0; round < ROUNDS; round++)
        for (int k = 0; k < SIZES * KINDS; k++)
            for (int side = 0; side < SIDES; side++)
                groups[k / KINDS][k % KINDS].times[side][round] = timed(&groups[k / KINDS][k % KINDS], side);
    printf("Medians of %d rounds over %d pairs of each kind. GEOS %s. Ours: %s, called through the C interface.\n\n", ROUNDS, PAIRS,
           GEOSversion(), OURS);
    printf("| pair, nanoseconds | ours, `misonkandi_relate_outlines` | GEOS, `GEOSRelate_r` | / ours | with `GEOSisValid_r` of both | "
           "/ ours | `GEOSPreparedIntersects_r` |\n|---|---:|---:|---:|---:|---:|---:|\n");
    for (int k = 0; k < SIZES * KINDS; k++)
        print_line(&groups[k / KINDS][k % KINDS]);
    return 0;
}
