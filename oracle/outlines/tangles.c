/* Random outlines that need not be simple: any corners, few places visited often, spikes, one walked several times,
 * all on one line. */
#include "draw.h"
#include "outlines.h"

static void any(outline *o, const spread *s) { draw_corners(o, draw_count(), s); }

static int is_equal(spot a, spot b) { return a.x == b.x && a.y == b.y; }

/* Some corner's place is the one of another corner. */
static void visited_often(outline *o, const spread *s)
{
    size_t places = 3 + draw() % 6, n = draw_count();
    outline few;
    draw_corners(&few, places, s);
    o->numbers = 2 * n;
    for (size_t k = 0; k < n; k++)
        do
            o->corners[k] = few.corners[draw() % places];
        while (k > 0 && draw() % 8 && is_equal(o->corners[k], o->corners[k - 1]));
}

/* Of a simple outline some corners are left for another place and come back to. */
static void spikes(outline *o, const spread *s)
{
    outline base;
    size_t n = 0;
    draw_simple(&base, LEAST + draw() % 20, s);
    for (size_t k = 0; k < base.numbers / 2; k++) {
        o->corners[n++] = base.corners[k];
        if (draw() % 3 == 0) {
            o->corners[n++] = draw() % 2 ? draw_spot(s) : on_side_of(&base, k);
            o->corners[n++] = base.corners[k];
        }
    }
    o->numbers = 2 * (n < MOST ? n : MOST);
}

/* The same corners again and again, the last time perhaps not all of them. */
static void walked_again(outline *o, const spread *s)
{
    outline base;
    draw_simple(&base, LEAST + draw() % 20, s);
    size_t once = base.numbers / 2, n = once + draw() % (MOST - once + 1);
    o->numbers = 2 * n;
    for (size_t k = 0; k < n; k++)
        o->corners[k] = base.corners[k % once];
}

static void on_one_line(outline *o, const spread *s)
{
    size_t n = draw_count();
    spot from = draw_spot(s), to = draw_spot(s);
    outline line = {.numbers = 4, .corners = {from, to}};
    o->numbers = 2 * n;
    for (size_t k = 0; k < n; k++)
        o->corners[k] = on_side_of(&line, 0);
}

void tangled_tasks(long count, uint64_t seed)
{
    static void (*const kinds[5])(outline *, const spread *) = {any, visited_often, spikes, walked_again, on_one_line};
    task t = {.for_others = 1};
    start_draws(seed);
    for (long i = 0; i < count; i++) {
        spread s = draw_spread();
        kinds[i % 5](&t.shape, &s);
        shift(&t.shape, &s);
        draw_points(&t);
        give(&t);
    }
    end_batch();
}
