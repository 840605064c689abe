/* Random shapes to be written, with room for them at an offset, with too little, and with none; then such as can't be:
 * kinds that there aren't, wrong counts, numbers beyond the range, and these together. */
#include "../outlines/draw.h"
#include "wkt.h"

void give_shape(const shape *s, size_t room, size_t offset)
{
    static task one = {.writes = 1};
    one.put = *s;
    one.room = room;
    one.offset = offset;
    give(&one);
}

/* How long its text is, by the rule. */
static size_t length_of(const shape *s)
{
    writing w;
    write_by_rule(s, BUFFER, 0, &w);
    return w.word >> 31 ? 0 : w.word;
}

static void give_in_rooms(const shape *s)
{
    size_t length = length_of(s), spare = draw() % (BUFFER - length + 1);
    give_shape(s, BUFFER, spare);
    give_shape(s, length, 0);
    switch (draw() % 4) {
    case 0: give_shape(s, length + spare, spare + 1); break;
    case 1: give_shape(s, spare, spare + 1 + draw() % 5); break;
    case 2: give_shape(s, BUFFER, SIZE_MAX - draw() % 2000); break;
    case 3: give_shape(s, draw() % (length + 1), 0); break;
    }
}

static void spoil(shape *s)
{
    static const uint32_t kinds[8] = {0, 4, 5, 256, 257, UINT32_MAX, 1u << 31, 3};
    if (draw() % 3 == 0)
        s->kind = kinds[draw() % 8];
    if (draw() % 3 == 0)
        s->list.numbers = draw() % 2 ? draw() % 9 : 2 * ROOM - draw() % 9;
    if (draw() % 3 == 0 && s->list.numbers > 1)
        set_far(&s->list);
}

void write_tasks(long count, uint64_t seed)
{
    shape s = {0};
    start_draws(seed);
    for (long i = 0; i < count; i++) {
        draw_shape(&s);
        give_in_rooms(&s);
        spoil(&s);
        give_shape(&s, draw() % 2 ? BUFFER : 5, draw() % 8);
    }
    end_batch();
}
