/* outline_compare [COUNT [SEED]]: GEOS, request R-8's rule in plain C and the library, on the same outlines and
 * points. GEOS is asked about simple outlines only; which are simple is found exactly, and GEOS must call the same
 * ones valid. Exit status 0: all say the same. */
#include "outline_geos.h"
#include <stdio.h>
#include <stdlib.h>

enum { SHOWN = 20 };

typedef struct {
    long outlines, points, simple, asked;
} counts;

static counts so_far, all;
static long differ, words[6];

/* Whether this difference is one of the first; then its details follow. */
static int show(const char *what, const outline *o, spot p)
{
    if (differ++ >= SHOWN)
        return 0;
    printf("DIFFERENT: %s: (%d,%d) in", what, p.x, p.y);
    for (size_t k = 0; k < o->numbers; k++)
        printf("%c%d", k % 2 ? ',' : ' ', k % 2 ? o->corners[k / 2].y : o->corners[k / 2].x);
    putchar('\n');
    return 1;
}

static void judge_library(const task *t)
{
    for (int k = 0; k < t->count; k++) {
        uint32_t rule = by_the_rule(&t->shape, t->points[k]);
        words[rule >> 31 ? (rule >> 8 & 255) - 13 : rule - 1]++;
        if (t->said[k] != rule && show("the library, the rule", &t->shape, t->points[k]))
            printf("  %x, %x\n", t->said[k], rule);
    }
}

static void judge_point(const task *t, int k, const GEOSGeometry *area, const GEOSPreparedGeometry *prepared)
{
    uint32_t rule = by_the_rule(&t->shape, t->points[k]);
    GEOSGeometry *p = point(t->points[k]);
    unsigned one = by_relate(area, p), two = by_predicates(area, p), three = by_prepared(prepared, p);
    GEOSGeom_destroy_r(geos(), p);
    int same = one == rule && two == rule && three == rule;
    if (!same && show("GEOS by relate, by predicates, prepared; the rule", &t->shape, t->points[k]))
        printf("  %u, %u, %u; %u\n", one, two, three, rule);
}

/* Every outline that isn't refused must be valid to GEOS if it is simple, and else not. */
static void judge_geos(const task *t)
{
    int simple = is_simple(&t->shape);
    GEOSGeometry *area = polygon(&t->shape, all.outlines % 2);
    if (GEOSisValid_r(geos(), area) != simple)
        show(simple ? "simple, and not valid" : "not simple, and valid", &t->shape, t->points[0]);
    if (simple) {
        const GEOSPreparedGeometry *prepared = GEOSPrepare_r(geos(), area);
        for (int k = 0; k < t->count; k++)
            judge_point(t, k, area, prepared);
        GEOSPreparedGeom_destroy_r(geos(), prepared);
        so_far.asked += t->count;
        so_far.simple++;
    }
    GEOSGeom_destroy_r(geos(), area);
}

static void judge(const task *t)
{
    so_far.outlines++;
    so_far.points += t->count;
    judge_library(t);
    if (t->for_others && !(by_the_rule(&t->shape, t->points[0]) >> 31))
        judge_geos(t);
    all.outlines++;
}

static void report(const char *name)
{
    printf("%s: %ld outlines, %ld points; GEOS on %ld simple outlines, %ld points; %ld differ so far\n", name,
           so_far.outlines, so_far.points, so_far.simple, so_far.asked, differ);
    all.points += so_far.points;
    all.simple += so_far.simple;
    all.asked += so_far.asked;
    so_far = (counts){0};
}

int main(int argc, char **argv)
{
    long count = argc > 1 ? atol(argv[1]) : 20000;
    uint64_t seed = argc > 2 ? strtoull(argv[2], NULL, 10) : 1;
    const char *const grids[3] = {"grid of 4 by 4, 3 corners", "4 corners", "5 corners"};
    start_geos();
    start_batches(judge);
    for (int corners = 3; corners <= 5; corners++) {
        grid_tasks(corners);
        report(grids[corners - 3]);
    }
    simple_tasks(count, seed);
    report("random, simple");
    tangled_tasks(count, seed);
    report("random, any");
    refused_tasks();
    report("at the edge of a refusal, GEOS not asked");
    printf("Inside %ld, OnBoundary %ld, Outside %ld; refused with 16 %ld, 17 %ld, 18 %ld\n", words[0], words[1],
           words[2], words[3], words[4], words[5]);
    printf("%ld outlines, %ld points; GEOS on %ld simple outlines, %ld points; %ld differ\n", all.outlines, all.points,
           all.simple, all.asked, differ);
    printf("GEOS %s; the library: %s; seed %llu\n", GEOSversion(), OURS, (unsigned long long)seed);
    return differ != 0;
}
