/* Random outlines that are simple: star-shaped about a middle, two lines of rising x, untangled ones, square walls. */
#include "draw.h"
#include "outlines.h"
#include <stdlib.h>

static const spot middle = {0, 0};

/* 0 for directions from that of x up to its opposite, 1 for the others. */
static int half(spot p) { return p.y < 0 || (p.y == 0 && p.x < 0); }

static int by_direction(const void *one, const void *other)
{
    spot a = *(const spot *)one, b = *(const spot *)other;
    return half(a) != half(b) ? half(a) - half(b) : -turn(middle, a, b);
}

static void star_shaped(outline *o, size_t corners, const spread *s)
{
    size_t kept = 0;
    spot *c = o->corners;
    draw_corners(o, corners, s);
    qsort(c, corners, sizeof *c, by_direction);
    for (size_t k = 0; k < corners; k++)
        if ((c[k].x || c[k].y) && (kept == 0 || by_direction(&c[kept - 1], &c[k])))
            c[kept++] = c[k];
    o->numbers = 2 * kept;
}

static int by_x(const void *one, const void *other)
{
    const spot *a = one, *b = other;
    return a->x != b->x ? (a->x > b->x) - (a->x < b->x) : (a->y > b->y) - (a->y < b->y);
}

/* From the first corner below the line to the last one, and above it back. */
static void rising(outline *o, size_t corners, const spread *s)
{
    outline drawn;
    spot *c = drawn.corners;
    size_t low = 0, high = corners;
    draw_corners(&drawn, corners, s);
    qsort(c, corners, sizeof *c, by_x);
    o->numbers = 2 * corners;
    for (size_t k = 0; k < corners; k++)
        if (k == 0 || k + 1 == corners || turn(c[0], c[corners - 1], c[k]) <= 0)
            o->corners[low++] = c[k];
        else
            o->corners[--high] = c[k];
}

static void reverse(spot *c, size_t from, size_t to)
{
    for (; from < to; from++, to--) {
        spot t = c[from];
        c[from] = c[to];
        c[to] = t;
    }
}

/* Two sides that meet are taken out and their ends joined the other way, which makes the outline shorter where they
 * cross; corners on one line may hinder it. */
static void untangled(outline *o, size_t corners, const spread *s)
{
    spot *c = o->corners;
    draw_corners(o, corners, s);
    for (int round = 0, moved = 1; moved && round < 200; round++) {
        moved = 0;
        for (size_t j = 2; j < corners; j++)
            for (size_t k = j == corners - 1; k + 1 < j; k++)
                if (sides_meet(c[k], c[k + 1], c[j], c[(j + 1) % corners])) {
                    reverse(c, k + 1, j);
                    moved = 1;
                }
    }
}

static void add(outline *o, spot p)
{
    size_t n = o->numbers / 2;
    if (n > 0 && o->corners[n - 1].x == p.x && o->corners[n - 1].y == p.y)
        return;
    o->corners[n] = p;
    o->numbers += 2;
}

/* Columns side by side, each from below 0 to above 0; lying down every second time. At least four corners. */
static void square_walls(outline *o, size_t corners, const spread *s)
{
    size_t columns = corners < 4 ? 1 : corners / 4, flip = draw() % 2;
    spot c[MOST / 4 + 1];
    int32_t tops[MOST / 4];
    for (size_t k = 0; k <= columns; k++)
        c[k] = draw_spot(s);
    qsort(c, columns + 1, sizeof *c, by_x);
    o->numbers = 0;
    for (size_t k = 0; k < columns; k++) {
        int32_t low = c[k].y < 0 ? c[k].y : -1 - c[k].y / 2;
        tops[k] = 1 + abs(draw_spot(s).y) / 2;
        add(o, (spot){c[k].x, low});
        add(o, (spot){c[k + 1].x, low});
    }
    for (size_t k = columns; k-- > 0;) {
        add(o, (spot){c[k + 1].x, tops[k]});
        add(o, (spot){c[k].x, tops[k]});
    }
    for (size_t k = 0; flip && k < o->numbers / 2; k++)
        o->corners[k] = (spot){o->corners[k].y, o->corners[k].x};
}

void draw_simple(outline *o, size_t corners, const spread *s)
{
    static void (*const kinds[4])(outline *, size_t, const spread *) = {star_shaped, rising, untangled, square_walls};
    for (;;) {
        kinds[draw() % 4](o, corners, s);
        if (o->numbers >= 2 * LEAST && is_simple(o))
            return;
        corners = LEAST + draw() % (corners - LEAST + 1);
    }
}
