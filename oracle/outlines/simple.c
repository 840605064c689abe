/* Which outlines are simple: neighbouring sides share one end and nothing more, and other sides are apart. Exact. */
#include "outlines.h"

int turn(spot a, spot b, spot c)
{
    __int128 left = ((__int128)b.x - a.x) * ((__int128)c.y - a.y);
    __int128 right = ((__int128)b.y - a.y) * ((__int128)c.x - a.x);
    return (left > right) - (left < right);
}

static int between(int32_t a, int32_t n, int32_t b) { return (a <= n && n <= b) || (b <= n && n <= a); }

static int on_side(spot a, spot b, spot p)
{
    return between(a.x, p.x, b.x) && between(a.y, p.y, b.y) && turn(a, b, p) == 0;
}

int sides_meet(spot a, spot b, spot c, spot d)
{
    if (turn(a, b, c) * turn(a, b, d) < 0 && turn(c, d, a) * turn(c, d, b) < 0)
        return 1;
    return on_side(a, b, c) || on_side(a, b, d) || on_side(c, d, a) || on_side(c, d, b);
}

/* Whether sides a-b and b-c share more than b. */
static int fold_back(spot a, spot b, spot c) { return on_side(a, b, c) || on_side(b, c, a); }

int is_simple(const outline *o)
{
    const spot *c = o->corners;
    size_t n = o->numbers / 2;
    for (size_t k = 0; k < n; k++)
        if (fold_back(c[k], c[(k + 1) % n], c[(k + 2) % n]))
            return 0;
    for (size_t j = 2; j < n; j++)
        for (size_t k = j == n - 1; k + 1 < j; k++)
            if (sides_meet(c[k], c[k + 1], c[j], c[(j + 1) % n]))
                return 0;
    return 1;
}
