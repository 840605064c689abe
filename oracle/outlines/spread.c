/* How many corners random outlines have, and where: up to 5, 100, 10^4, 10^6 or 10^9 from the middle; some as
 * multiples, so that many lie on one line and sides have whole points; some at the ends of that range; the middle at
 * 0, or as near to the limits as it can be. */
#include "corners.h"
#include "draw.h"

spread draw_spread(void)
{
    static const int32_t sizes[5] = {5, 100, 10000, 1000000, LIMIT};
    spread s = {.size = sizes[draw() % 5], .step = 1, .at_limits = draw() % 3 == 0};
    if (draw() % 3 == 0 && s.size > 5)
        s.step = s.size / (int32_t)(4 + draw() % 9);
    if (draw() % 4 == 0) {
        s.shift_x = (LIMIT - s.size) * (draw() % 2 ? 1 : -1);
        s.shift_y = (LIMIT - s.size) * (draw() % 2 ? 1 : -1);
    }
    return s;
}

static int32_t draw_number(const spread *s)
{
    if (s->at_limits && draw() % 4 == 0)
        return draw() % 2 ? s->size : -s->size;
    int64_t most = s->size / s->step;
    return (int32_t)((int64_t)(draw() % (uint64_t)(2 * most + 1)) - most) * s->step;
}

spot draw_spot(const spread *s)
{
    int32_t x = draw_number(s);
    return (spot){x, draw_number(s)};
}

/* How many: often few, and often as many as there may be. */
size_t draw_count(void)
{
    if (draw() % 16 == 0)
        return MOST;
    return LEAST + draw() % (draw() % 2 ? 6 : MOST - LEAST + 1);
}

void draw_corners(outline *o, size_t corners, const spread *s)
{
    o->numbers = 2 * corners;
    for (size_t k = 0; k < corners; k++)
        o->corners[k] = draw_spot(s);
}

/* From the middle at 0 to where the spread has it. */
void shift(outline *o, const spread *s)
{
    for (size_t k = 0; k < o->numbers / 2; k++) {
        o->corners[k].x += s->shift_x;
        o->corners[k].y += s->shift_y;
    }
}
