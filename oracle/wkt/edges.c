/* Random texts of the grammar that are refused, or nearly: wrong corner counts, numbers beyond the range, open rings,
 * and these together, for the order of the refusals. */
#include "../outlines/draw.h"
#include "wkt.h"

/* As many pairs as there is room for, or fewer than there may be; a ring stays closed. */
static void recount(uint32_t kind, outline *pairs)
{
    spot last = pairs->corners[pairs->numbers / 2 - 1];
    spread where = draw_spread();
    size_t n = draw() % 2 ? 1 + draw() % 5 : MOST - 1 + draw() % 4;
    draw_corners(pairs, n, &where);
    pairs->corners[n - 1] = kind == POLYGON ? pairs->corners[0] : last;
}

/* The last pair is another one, by as little as 1. */
static void open_ring(outline *pairs)
{
    spot *p = &pairs->corners[pairs->numbers / 2 - 1];
    int32_t *number = draw() % 2 ? &p->x : &p->y;
    *number += *number > 0 ? -1 : 1;
}

void edge_tasks(long count, uint64_t seed)
{
    static text t;
    shape s;
    start_draws(seed);
    for (long i = 0; i < count; i++) {
        int far = NONE_FAR;
        draw_shape(&s);
        outline pairs = pairs_of(&s);
        if (draw() % 3 == 0 && s.kind != POINT)
            recount(s.kind, &pairs);
        if (draw() % 3 == 0)
            set_far(&pairs);
        if (draw() % 4 == 0)
            far = (int)(draw() % pairs.numbers);
        if (draw() % 3 == 0)
            open_ring(&pairs);
        spell(s.kind, &pairs, far, &t);
        give_text(&t);
    }
    end_batch();
}
