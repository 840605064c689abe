/* Prints GEOS's answers on the grid 0 to 3 as lines for the program `replay`; with --regions, the regions of two boxes that
 * they make. Our library isn't asked. */
#include "places.h"
#include <math.h>
#include <stdio.h>
#include <string.h>

static const char *const head =
    "# G misonkandi_relate_places: given are the kind of A (0 point, 1 box), its x, y, u, v, the kind of B, its x, y, u, v.\n"
    "# A coordinate's byte is a whole number, or fc for -0, fd for -infinity, fe for infinity, ff for no number.\n"
    "# G: the answers of GEOS %s `relate` on all pairs of points and boxes with whole coordinates 0 to 3, and some with -0. Last,\n"
    "# by document 01 alone: refusal 13 for a coordinate that isn't finite, for a box without min < max on both axes and for a\n"
    "# kind above 1.\n";

/* A coordinate's byte, as crates/replay/src/plan_calls.rt reads it: whole numbers up to 251, then four of its own. */
static unsigned byte_of(double x)
{
    if (isnan(x))
        return 255;
    if (isinf(x))
        return x > 0 ? 254 : 253;
    return x == 0 && signbit(x) ? 252 : (unsigned)x;
}

static void print_place(const place *p)
{
    printf("%02x%02x%02x%02x%02x", (unsigned)p->kind, byte_of(p->x0), byte_of(p->y0), byte_of(p->x1), byte_of(p->y1));
}

/* The cells lent, the word, no a, no b, no dimension, ten bytes given, the cells due. */
static void print_line(const place *a, const place *b, unsigned word, const uint8_t cells[9])
{
    putchar('G');
    for (int i = 0; i < 9; i++)
        printf("%02x", HELD);
    printf("%08x%018x%04x", word, 0, 10);
    print_place(a);
    print_place(b);
    for (int i = 0; i < 9; i++)
        printf("%02x", cells[i]);
    putchar('\n');
}

static void print_pair(const pair *p)
{
    char letters[10];
    uint8_t cells[9];
    GEOSGeometry *a = geometry(&p->a, 0), *b = geometry(&p->b, 0);
    by_geos(a, b, letters);
    GEOSGeom_destroy_r(geos(), a);
    GEOSGeom_destroy_r(geos(), b);
    for (int i = 0; i < 9; i++)
        cells[i] = (uint8_t)(strchr("F012", letters[i]) - "F012");
    print_line(&p->a, &p->b, 0, cells);
}

static void print_refused(place bad)
{
    const place point = {0, 1, 1, NAN, NAN}, box = {1, 0, 0, 3, 3};
    uint8_t held[9];
    memset(held, HELD, 9);
    print_line(&bad, &point, NOT_A_PLACE, held);
    print_line(&box, &bad, NOT_A_PLACE, held);
}

/* A coordinate that isn't finite, at each place where it is looked at. */
static void print_not_finite(double x)
{
    print_refused((place){0, x, 1, 0, 0});
    print_refused((place){0, 1, x, 0, 0});
    print_refused((place){1, x, 1, 2, 2});
    print_refused((place){1, 1, x, 2, 2});
    print_refused((place){1, 1, 1, x, 2});
    print_refused((place){1, 1, 1, 2, x});
}

/* -0 equals 0; a point's second corner is not looked at. */
static void print_odd(void)
{
    const place box = {1, 0, 0, 3, 3}, other = {1, -0.0, -0.0, 2, 3};
    const place point = {0, 0, 2, NAN, INFINITY}, corner = {0, -0.0, -0.0, -INFINITY, NAN};
    const place all[] = {box, other, point, corner};
    for (int i = 0; i < 4; i++)
        for (int j = 0; j < 4; j++)
            print_pair(&(pair){all[i], all[j]});
}

static const char *const region_head =
    "# g misonkandi_region_of_boxes: given are x, y, u, v of the first box and of the second, their bytes as for G.\n"
    "# g: request R-13's patterns on the matrices of GEOS %s, for all pairs of boxes with whole coordinates\n"
    "# 0 to 3. Last, by document 01 alone: refusal 13.\n";

static void print_region(const place *a, const place *b, unsigned word)
{
    const place *both[2] = {a, b};
    printf("g%018x%08x%018x%04x", 0, word, 0, 8);
    for (int i = 0; i < 2; i++)
        printf("%02x%02x%02x%02x", byte_of(both[i]->x0), byte_of(both[i]->y0), byte_of(both[i]->x1), byte_of(both[i]->y1));
    putchar('\n');
}

static void print_region_of(const pair *p)
{
    char letters[10];
    GEOSGeometry *a = geometry(&p->a, 0), *b = geometry(&p->b, 0);
    by_geos(a, b, letters);
    GEOSGeom_destroy_r(geos(), a);
    GEOSGeom_destroy_r(geos(), b);
    print_region(&p->a, &p->b, region_of(letters));
}

/* Two good boxes of the grid; then each that is none, on either side. */
static void print_regions(void)
{
    const place box = {1, 0, 0, 3, 3};
    const double bad[3] = {NAN, INFINITY, -INFINITY};
    long count;
    pair *pairs = grid_pairs(3, &count);
    printf(region_head, GEOSversion());
    for (long i = 0; i < count; i++)
        if (pairs[i].a.kind && pairs[i].b.kind)
            print_region_of(&pairs[i]);
    for (int i = 0; i < 15; i++) {
        place no = {1, 1, 1, 2, 2};
        double *four[4] = {&no.x0, &no.y0, &no.x1, &no.y1};
        if (i < 12)
            *four[i / 3] = bad[i % 3];
        else if (i < 14)
            *four[i - 10] = 1;
        else
            no.x1 = no.y1 = 0;
        print_region(&no, &box, NOT_A_PLACE);
        print_region(&box, &no, NOT_A_PLACE);
    }
}

int main(int argc, char **argv)
{
    long count;
    start_geos();
    if (argc > 1 && !strcmp(argv[1], "--regions")) {
        print_regions();
        return 0;
    }
    printf(head, GEOSversion());
    pair *pairs = grid_pairs(3, &count);
    for (long i = 0; i < count; i++)
        print_pair(&pairs[i]);
    print_odd();
    for (int x = 0; x < 3; x++)
        for (int y = 0; y < 3; y++)
            if (x < 2 || y < 2)
                print_refused((place){1, 1, 1, x, y});
    print_refused((place){2, 0, 0, 3, 3});
    print_refused((place){255, 0, 0, 3, 3});
    print_not_finite(NAN);
    print_not_finite(INFINITY);
    print_not_finite(-INFINITY);
    return 0;
}
