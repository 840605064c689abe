/* Prints GEOS's answers on simple outlines as lines for the program `replay`. Our library isn't asked. Where GEOS's
 * ways to answer and request R-8's rule in C don't all say the same, the exit status is 1. */
#include "../outlines/draw.h"
#include "outline_geos.h"
#include <stdio.h>
#include <stdlib.h>

static const char *const head =
    "# I misonkandi_point_in_outline: given are x and y of each corner in turn, four bytes each; a and b are the\n"
    "# point's x and y. 1 is Inside, 2 OnBoundary, 3 Outside.\n"
    "# I: the answers of GEOS %s (`relate`; `contains`, `touches` and `intersects`; these,\n"
    "# prepared) on simple outlines: of 3 to 5 corners in a grid of 4 by 4, random ones of up to 64 corners, and at\n"
    "# the limits. Last, by request R-8 alone: refusals 16, 17 and 18, and which of them comes first.\n";

/* The cells lent, the word, a, b, no dimension, the count of bytes given, these; nothing is written. */
static void print_case(const outline *o, spot p, uint32_t word)
{
    printf("I%018d%08x%08x%08x00%04x", 0, word, (uint32_t)p.x, (uint32_t)p.y, (unsigned)(4 * o->numbers));
    for (size_t k = 0; k < o->numbers; k++)
        printf("%08x", (uint32_t)(k % 2 ? o->corners[k / 2].y : o->corners[k / 2].x));
    putchar('\n');
}

static unsigned by_geos(const outline *o, spot at)
{
    GEOSGeometry *area = polygon(o, 0), *p = point(at);
    const GEOSPreparedGeometry *prepared = GEOSPrepare_r(geos(), area);
    unsigned said = by_relate(area, p);
    int same = by_predicates(area, p) == said && by_prepared(prepared, p) == said && by_the_rule(o, at) == said;
    if (!same || GEOSisValid_r(geos(), area) != 1) {
        fprintf(stderr, "GEOS doesn't say the same in each way, or not as the rule\n");
        exit(1);
    }
    GEOSPreparedGeom_destroy_r(geos(), prepared);
    GEOSGeom_destroy_r(geos(), area);
    GEOSGeom_destroy_r(geos(), p);
    return said;
}

/* A point of each answer, if there is one among the outline's points. */
static void print_each_answer(const task *t)
{
    int done[4] = {0}, from = (int)(draw() % (uint64_t)t->count);
    for (int k = 0; k < t->count; k++) {
        spot p = t->points[(from + k) % t->count];
        unsigned said = by_geos(&t->shape, p);
        if (!done[said]++)
            print_case(&t->shape, p, said);
    }
}

static void print_grid(int outlines)
{
    task t = {0};
    for (int x = -1; x <= 4; x++)
        for (int y = -1; y <= 4; y++)
            t.points[t.count++] = (spot){x, y};
    for (int i = 0; i < outlines; i++) {
        do {
            t.shape.numbers = 2 * (3 + (size_t)i % 3);
            for (size_t k = 0; k < t.shape.numbers / 2; k++)
                t.shape.corners[k] = (spot){(int32_t)(draw() % 4), (int32_t)(draw() % 4)};
        } while (!is_simple(&t.shape));
        print_each_answer(&t);
    }
}

static void print_random(int outlines, int at_limits)
{
    for (int i = 0; i < outlines; i++) {
        task t = {0};
        spread s = draw_spread();
        if (at_limits)
            s = (spread){.size = LIMIT, .step = i % 2 ? 1 : LIMIT / 10, .at_limits = 1};
        draw_simple(&t.shape, LEAST + (size_t)i * (MOST - LEAST) / (size_t)(outlines - 1), &s);
        shift(&t.shape, &s);
        draw_points(&t);
        print_each_answer(&t);
    }
}

static void print_refused(outline o, spot p)
{
    uint32_t word = by_the_rule(&o, p);
    if (!(word >> 31)) {
        fprintf(stderr, "this should be refused\n");
        exit(1);
    }
    print_case(&o, p, word);
}

static const outline square = {8, {{0, 0}, {4, 0}, {4, 4}, {0, 4}}};

/* Too few numbers, an odd count, too many; these also with a far number and with equal corners. */
static void print_counts(void)
{
    static const size_t numbers[6] = {0, 2, 4, 7, 129, 130};
    for (int i = 0; i < 6; i++) {
        outline o = {.numbers = numbers[i]};
        for (int32_t k = 0; k < ROOM; k++)
            o.corners[k] = (spot){k, k * k};
        print_refused(o, (spot){1, 2});
        o.corners[1] = o.corners[0];
        print_refused(o, (spot){LIMIT + 1, 2});
    }
}

/* A number just beyond the limits and the last there is, of a corner and of the point; with equal corners too. */
static void print_far(void)
{
    static const int32_t far[4] = {LIMIT + 1, -LIMIT - 1, INT32_MAX, INT32_MIN};
    for (int i = 0; i < 4; i++) {
        outline o = square;
        print_refused(o, (spot){far[i], 1});
        print_refused(o, (spot){1, far[i]});
        o.corners[i].x = far[i];
        print_refused(o, (spot){1, 1});
        o = square;
        o.corners[i].y = far[3 - i];
        o.corners[(i + 2) % 4] = o.corners[(i + 1) % 4];
        print_refused(o, (spot){1, 1});
    }
}

static void print_equal(void)
{
    for (int i = 0; i < 4; i++) {
        outline o = square;
        o.corners[i] = o.corners[(i + 1) % 4];
        print_refused(o, (spot){1, 1});
    }
}

int main(void)
{
    start_geos();
    start_draws(8);
    printf(head, GEOSversion());
    print_grid(30);
    print_random(40, 0);
    print_random(20, 1);
    print_counts();
    print_far();
    print_equal();
    return 0;
}
