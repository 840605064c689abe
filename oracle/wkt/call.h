/* The two calls. What is lent holds HELD beforehand, so that it shows what a call leaves alone. */
#ifndef CALL_H
#define CALL_H

#include "misonkandi.h"
#include "wkt.h"

static void call_read(const uint8_t *bytes, size_t count, reading *r)
{
    memset(r, HELD, sizeof *r);
    r->word = misonkandi_read_wkt(bytes, count, r->xy, r->answer);
}

static void call_write(const shape *s, size_t room, size_t offset, writing *w)
{
    memset(w, HELD, sizeof *w);
    w->word = misonkandi_write_wkt(s->kind, &s->list.corners[0].x, s->list.numbers, w->buffer, room, offset);
}

#endif
