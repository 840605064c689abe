/* outline_bench [FILE]: times the library, GEOS and the plain C rule in one process on the same outlines and points,
 * turn by turn, and prints a Markdown table. GEOS's geometries are built and prepared before the clock starts. Before
 * a size is timed, the library must give the rule's answer and GEOS's to each point. The file gets the inputs and our
 * times. */
#include "../outlines/draw.h"
#include "misonkandi.h"
#include "outline_geos.h"
#include "timing.h"
#include <stdio.h>
#include <stdlib.h>

enum { OUTLINES = 64, EACH = 512, CALLS = OUTLINES * EACH, ROUNDS = 20, PASSES = 8, SIZES = 3 };

/* The point with number k is asked of the outline with number k / EACH. */
static outline shapes[OUTLINES];
static spot points[CALLS];
static GEOSGeometry *areas[OUTLINES], *built[CALLS];
static const GEOSPreparedGeometry *prepared[OUTLINES];
static volatile unsigned sink;

static uint32_t by_library(int k)
{
    const outline *o = &shapes[k / EACH];
    return misonkandi_point_in_outline(&o->corners[0].x, o->numbers, points[k].x, points[k].y);
}

static void time_library(void)
{
    for (int n = 0; n < PASSES; n++)
        for (int k = 0; k < CALLS; k++)
            sink += by_library(k);
}

static void time_rule(void)
{
    for (int n = 0; n < PASSES; n++)
        for (int k = 0; k < CALLS; k++)
            sink += by_the_rule(&shapes[k / EACH], points[k]);
}

static void time_intersects(void)
{
    for (int k = 0; k < CALLS; k++)
        sink += (unsigned)GEOSIntersects_r(geos(), areas[k / EACH], built[k]);
}

static void time_contains(void)
{
    for (int k = 0; k < CALLS; k++)
        sink += (unsigned)GEOSContains_r(geos(), areas[k / EACH], built[k]);
}

static void time_relate(void)
{
    for (int k = 0; k < CALLS; k++) {
        char *said = GEOSRelate_r(geos(), areas[k / EACH], built[k]);
        sink += (unsigned char)said[0];
        GEOSFree_r(geos(), said);
    }
}

static void time_prepared_intersects(void)
{
    for (int k = 0; k < CALLS; k++)
        sink += (unsigned)GEOSPreparedIntersects_r(geos(), prepared[k / EACH], built[k]);
}

static void time_prepared_contains(void)
{
    for (int k = 0; k < CALLS; k++)
        sink += (unsigned)GEOSPreparedContains_r(geos(), prepared[k / EACH], built[k]);
}

static void time_built_each_time(void)
{
    for (int k = 0; k < CALLS; k++) {
        GEOSGeometry *p = point(points[k]);
        sink += (unsigned)GEOSPreparedContains_r(geos(), prepared[k / EACH], p);
        GEOSGeom_destroy_r(geos(), p);
    }
}

static const struct {
    const char *name;
    void (*run)(void);
    int passes;
} sides[] = {
    {"ours, `misonkandi_point_in_outline`", time_library, PASSES},
    {"the rule in plain C", time_rule, PASSES},
    {"GEOS, `GEOSIntersects_r`", time_intersects, 1},
    {"GEOS, `GEOSContains_r`", time_contains, 1},
    {"GEOS, `GEOSRelate_r`", time_relate, 1},
    {"GEOS, `GEOSPreparedIntersects_r`", time_prepared_intersects, 1},
    {"GEOS, `GEOSPreparedContains_r`", time_prepared_contains, 1},
    {"the same, the point built at each call", time_built_each_time, 1},
};

enum { SIDES = sizeof sides / sizeof *sides };

/* Simple outlines of so many corners, up to 10,000 from the middle, and their points. */
static void make(size_t corners)
{
    const spread s = {.size = 10000, .step = 1};
    for (int i = 0; i < OUTLINES; i++) {
        do
            draw_simple(&shapes[i], corners, &s);
        while (shapes[i].numbers != 2 * corners);
        areas[i] = polygon(&shapes[i], 0);
        prepared[i] = GEOSPrepare_r(geos(), areas[i]);
    }
    for (int k = 0; k < CALLS; k++) {
        points[k] = draw_point(&shapes[k / EACH]);
        built[k] = point(points[k]);
    }
}

static void clear(void)
{
    for (int k = 0; k < CALLS; k++)
        GEOSGeom_destroy_r(geos(), built[k]);
    for (int i = 0; i < OUTLINES; i++) {
        GEOSPreparedGeom_destroy_r(geos(), prepared[i]);
        GEOSGeom_destroy_r(geos(), areas[i]);
    }
}

static void check(long answers[4])
{
    for (int k = 0; k < CALLS; k++) {
        uint32_t said = by_library(k);
        const GEOSGeometry *area = areas[k / EACH], *p = built[k];
        int same = by_the_rule(&shapes[k / EACH], points[k]) == said && by_relate(area, p) == said &&
                   by_predicates(area, p) == said && by_prepared(prepared[k / EACH], p) == said;
        if (!same) {
            fprintf(stderr, "the library, the rule and GEOS don't say the same\n");
            exit(1);
        }
        answers[said]++;
    }
}

/* In the form of ../outlines/list.c, with our time before. */
static void write_inputs(FILE *to, double ours)
{
    fprintf(to, "B %zu %.3f\n", shapes[0].numbers / 2, ours);
    for (int i = 0; i < OUTLINES; i++) {
        fprintf(to, "S %zu", shapes[i].numbers / 2);
        for (size_t k = 0; k < shapes[i].numbers / 2; k++)
            fprintf(to, " %d %d", shapes[i].corners[k].x, shapes[i].corners[k].y);
        for (int k = i * EACH; k < (i + 1) * EACH; k++)
            fprintf(to, " %d %d %u", points[k].x, points[k].y, by_library(k));
        fputc('\n', to);
    }
}

static void print_table(double best[SIZES][SIDES], const long answers[4])
{
    const double percent = SIZES * CALLS / 100.0;
    printf("Best of %d rounds over %d points of %d simple outlines, corners up to 10,000 from the middle. Of the\n"
           "points %.0f %% are Inside, %.0f %% OnBoundary. GEOS %s. Ours: %s, called\n"
           "through the C interface.\n\n",
           ROUNDS, CALLS, OUTLINES, (double)answers[INSIDE] / percent, (double)answers[ON_BOUNDARY] / percent,
           GEOSversion(), OURS);
    printf("| a point, nanoseconds | 4 corners | / ours | 16 corners | / ours | 64 corners | / ours |\n"
           "|---|---:|---:|---:|---:|---:|---:|\n");
    for (int side = 0; side < SIDES; side++) {
        printf("| %s |", sides[side].name);
        for (int n = 0; n < SIZES; n++) {
            double ratio = best[n][side] / best[n][0];
            printf(" %.1f | %.*f |", best[n][side], ratio < 10 ? 2 : 0, ratio);
        }
        putchar('\n');
    }
}

int main(int argc, char **argv)
{
    static const size_t corners[SIZES] = {4, 16, 64};
    double best[SIZES][SIDES] = {{0}};
    long answers[4] = {0};
    FILE *to = argc > 1 ? fopen(argv[1], "w") : NULL;
    start_geos();
    start_draws(1);
    for (int n = 0; n < SIZES; n++) {
        make(corners[n]);
        check(answers);
        for (int round = 0; round < ROUNDS; round++)
            for (int side = 0; side < SIDES; side++)
                round_of(sides[side].run, CALLS * sides[side].passes, &best[n][side]);
        if (to)
            write_inputs(to, best[n][0]);
        clear();
    }
    print_table(best, answers);
    return to && fclose(to);
}
