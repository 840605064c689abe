/* Random texts that are read. */
#include "../outlines/draw.h"
#include "wkt.h"

void give_text(const text *t)
{
    static task one;
    one.given = *t;
    give(&one);
}

void good_tasks(long count, uint64_t seed)
{
    static text t;
    start_draws(seed);
    for (long i = 0; i < count; i++) {
        draw_text(&t);
        give_text(&t);
    }
    end_batch();
}
