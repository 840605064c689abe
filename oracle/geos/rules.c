/* Document 01, "Boxes and points", written down a second time in plain C. It shares nothing with the crate. */
#include "places.h"
#include <math.h>
#include <string.h>

static int within(const place *a, const place *b)
{
    return b->x0 <= a->x0 && a->x1 <= b->x1 && b->y0 <= a->y0 && a->y1 <= b->y1;
}

static int strictly_inside(const place *a, const place *b)
{
    return b->x0 < a->x0 && a->x1 < b->x1 && b->y0 < a->y0 && a->y1 < b->y1;
}

static int overlap(double alo, double ahi, double blo, double bhi) { return alo < bhi && blo < ahi; }

static int side_equal(double alo, double ahi, double blo, double bhi)
{
    return alo == blo || alo == bhi || ahi == blo || ahi == bhi;
}

static char boundaries(const place *a, const place *b)
{
    int meet = a->x0 <= b->x1 && b->x0 <= a->x1 && a->y0 <= b->y1 && b->y0 <= a->y1;
    if (!meet || strictly_inside(a, b) || strictly_inside(b, a))
        return 'F';
    if (side_equal(a->x0, a->x1, b->x0, b->x1) && overlap(a->y0, a->y1, b->y0, b->y1))
        return '1';
    if (side_equal(a->y0, a->y1, b->y0, b->y1) && overlap(a->x0, a->x1, b->x0, b->x1))
        return '1';
    return '0';
}

static void box_box(const place *a, const place *b, char m[10])
{
    int ii = overlap(a->x0, a->x1, b->x0, b->x1) && overlap(a->y0, a->y1, b->y0, b->y1);
    int ab = within(a, b), ba = within(b, a);
    m[0] = ii ? '2' : 'F';
    m[1] = ii && !ab ? '1' : 'F';
    m[2] = ab ? 'F' : '2';
    m[3] = ii && !ba ? '1' : 'F';
    m[4] = boundaries(a, b);
    m[5] = ab ? 'F' : '1';
    m[6] = ba ? 'F' : '2';
    m[7] = ba ? 'F' : '1';
    m[8] = '2';
    m[9] = 0;
}

static void point_box(const place *p, const place *b, char m[10])
{
    if (b->x0 < p->x0 && p->x0 < b->x1 && b->y0 < p->y0 && p->y0 < b->y1)
        strcpy(m, "0FFFFF212");
    else if (b->x0 <= p->x0 && p->x0 <= b->x1 && b->y0 <= p->y0 && p->y0 <= b->y1)
        strcpy(m, "F0FFFF212");
    else
        strcpy(m, "FF0FFF212");
}

static void transpose(const char t[10], char m[10])
{
    static const int from[9] = {0, 3, 6, 1, 4, 7, 2, 5, 8};
    for (int i = 0; i < 9; i++)
        m[i] = t[from[i]];
    m[9] = 0;
}

void by_the_rules(const pair *p, char m[10])
{
    const place *a = &p->a, *b = &p->b;
    char t[10];
    if (a->kind && b->kind) {
        box_box(a, b, m);
    } else if (b->kind) {
        point_box(a, b, m);
    } else if (a->kind) {
        point_box(b, a, t);
        transpose(t, m);
    } else {
        strcpy(m, a->x0 == b->x0 && a->y0 == b->y0 ? "0FFFFFFF2" : "FF0FFF0F2");
    }
}

static int is_place(const place *p)
{
    if (p->kind == 0)
        return isfinite(p->x0) && isfinite(p->y0);
    return p->kind == 1 && isfinite(p->x0) && isfinite(p->y0) && isfinite(p->x1) && isfinite(p->y1) && p->x0 < p->x1 &&
           p->y0 < p->y1;
}

int are_places(const pair *p) { return is_place(&p->a) && is_place(&p->b); }
