/* Random texts with one to three damages: cut, a byte changed, put in or taken out, a stretch taken out or doubled. */
#include "../outlines/draw.h"
#include "wkt.h"

/* Mostly bytes that a text has somewhere, and those that other programs give a meaning. */
static char draw_byte(void)
{
    static const char likely[] = "    ((()),,,--00123456789PpOoIiNnTtLlEeSsRrGgYyZzMmXx.+\t\n\r\v\f;=";
    return draw() % 8 ? likely[draw() % (sizeof likely - 1)] : (char)draw();
}

static void double_stretch(text *t, size_t at)
{
    char stretch[64];
    size_t count = 1 + draw() % (sizeof stretch - 1);
    if (count > t->count - at)
        count = t->count - at;
    for (size_t k = 0; k < count; k++)
        stretch[k] = (char)t->bytes[at + k];
    put_in(t, at, stretch, count);
}

static void damage(text *t)
{
    size_t at = draw() % t->count;
    char byte = draw_byte();
    switch (draw() % 6) {
    case 0: t->count = at; break;
    case 1: t->bytes[at] = (uint8_t)byte; break;
    case 2: put_in(t, at, &byte, 1); break;
    case 3: take_out(t, at, 1); break;
    case 4: take_out(t, at, 1 + draw() % (t->count - at)); break;
    case 5: double_stretch(t, at); break;
    }
}

void damaged_tasks(long count, uint64_t seed)
{
    static text t;
    start_draws(seed);
    for (long i = 0; i < count; i++) {
        draw_text(&t);
        for (uint64_t damages = 1 + draw() % 3; damages && t.count; damages--)
            damage(&t);
        give_text(&t);
    }
    end_batch();
}
