/* Random tasks on simple outlines: some of their sides are cut, and the list starts anywhere and goes either way. */
#include "draw.h"
#include "outlines.h"

/* A whole point on a side becomes a corner. */
static void cut_side(outline *o)
{
    size_t n = o->numbers / 2, side = draw() % n;
    spot a = o->corners[side], b = o->corners[(side + 1) % n], p = on_side_of(o, side);
    if (n == MOST || (p.x == a.x && p.y == a.y) || (p.x == b.x && p.y == b.y))
        return;
    for (size_t k = n; k > side + 1; k--)
        o->corners[k] = o->corners[k - 1];
    o->corners[side + 1] = p;
    o->numbers += 2;
}

/* Another start and, every second time, the other direction. */
static void reorder(outline *o)
{
    outline was = *o;
    size_t n = o->numbers / 2, from = draw() % n, step = draw() % 2 ? 1 : n - 1;
    for (size_t k = 0; k < n; k++)
        o->corners[k] = was.corners[(from + k * step) % n];
}

void simple_tasks(long count, uint64_t seed)
{
    task t = {.for_others = 1};
    start_draws(seed);
    for (long i = 0; i < count; i++) {
        spread s = draw_spread();
        draw_simple(&t.shape, draw_count(), &s);
        shift(&t.shape, &s);
        for (size_t cuts = draw() % 4; cuts > 1; cuts--)
            cut_side(&t.shape);
        reorder(&t.shape);
        draw_points(&t);
        give(&t);
    }
    end_batch();
}
