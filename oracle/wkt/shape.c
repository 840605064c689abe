/* Random shapes that can be written, and the pairs that their texts have. */
#include "../outlines/draw.h"
#include "wkt.h"

/* Equal neighbours are no refusal, so some corners are taken twice. */
static void repeat_some(outline *o)
{
    for (size_t k = 1; k < o->numbers / 2; k++)
        if (draw() % 8 == 0)
            o->corners[k] = o->corners[k - 1];
}

void draw_shape(shape *s)
{
    spread where = draw_spread();
    size_t corners = draw_count();
    s->kind = POINT + (uint32_t)(draw() % 3);
    if (s->kind == POINT)
        corners = 1;
    if (s->kind == LINE && draw() % 8 == 0)
        corners = 2;
    draw_corners(&s->list, corners, &where);
    shift(&s->list, &where);
    if (draw() % 4 == 0)
        repeat_some(&s->list);
}

/* The numbers at the limits and next to them, and the last there are. */
void set_far(outline *pairs)
{
    static const int32_t numbers[8] = {LIMIT,     -LIMIT,    LIMIT + 1,  -LIMIT - 1,
                                       INT32_MAX, INT32_MIN, 2000000000, LIMIT - 1};
    spot *p = &pairs->corners[draw() % (pairs->numbers / 2)];
    *(draw() % 2 ? &p->x : &p->y) = numbers[draw() % 8];
}

outline pairs_of(const shape *s)
{
    outline pairs = s->list;
    if (s->kind == POLYGON) {
        pairs.corners[pairs.numbers / 2] = pairs.corners[0];
        pairs.numbers += 2;
    }
    return pairs;
}

void draw_text(text *t)
{
    shape s;
    draw_shape(&s);
    outline pairs = pairs_of(&s);
    spell(s.kind, &pairs, NONE_FAR, t);
}
