/* Outlines and points that are refused, and their neighbours that just aren't: counts, limits, equal corners, and two
 * or three of these at once, for the order of the refusals. */
#include "outlines.h"

static const int32_t beyond[6] = {LIMIT, -LIMIT, LIMIT + 1, -LIMIT - 1, INT32_MAX, INT32_MIN};

/* A ring of corners on a parabola, so that all are different. */
static void fill(outline *o, size_t numbers)
{
    o->numbers = numbers;
    for (int32_t k = 0; k < ROOM; k++)
        o->corners[k] = (spot){k, k * k};
}

static void ask(outline o, spot p)
{
    task t = {.shape = o, .count = 1, .points = {p}};
    give(&t);
}

static int32_t *number(outline *o, size_t k) { return k % 2 ? &o->corners[k / 2].y : &o->corners[k / 2].x; }

/* With a far number at each place, of a corner or of the point; the outline is otherwise as it comes. */
static void ask_far(outline o)
{
    for (int b = 0; b < 6; b++) {
        for (size_t k = 0; k < o.numbers; k++) {
            outline with = o;
            *number(&with, k) = beyond[b];
            ask(with, (spot){1, 2});
        }
        ask(o, (spot){beyond[b], 2});
        ask(o, (spot){1, beyond[b]});
        ask(o, (spot){beyond[b], beyond[(b + 3) % 6]});
    }
}

/* With each corner equal to the next one, the last to the first; and without. */
static void ask_equal(outline o)
{
    size_t n = o.numbers / 2;
    ask(o, (spot){1, 2});
    ask_far(o);
    for (size_t k = 0; k < n; k++) {
        outline with = o;
        with.corners[k] = with.corners[(k + 1) % n];
        ask(with, (spot){1, 2});
        if (n < 6 || k == 0 || k == n - 1)
            ask_far(with);
    }
}

void refused_tasks(void)
{
    for (size_t numbers = 0; numbers <= 2 * ROOM; numbers++) {
        outline o;
        fill(&o, numbers);
        ask_equal(o);
    }
    end_batch();
}
