/* Request R-8's rule for a point in an outline, in plain C. It shares nothing with the crate. Numbers of 128 bits hold
 * every product here with room to spare. */
#include "outlines.h"

typedef __int128 whole;

static int is_far(spot p) { return p.x < -LIMIT || p.x > LIMIT || p.y < -LIMIT || p.y > LIMIT; }

/* "16 for a wrong corner count, 17 for a coordinate out of range, the point's too, 18 for two equal neighbouring
 * corners, last and first included"; 0 for none of these. */
static unsigned refusal(const outline *o, spot p)
{
    const spot *c = o->corners;
    size_t n = o->numbers / 2;
    if (o->numbers % 2 || n < LEAST || n > MOST)
        return 16;
    int far = is_far(p), equal = 0;
    for (size_t k = 0; k < n; k++) {
        spot next = c[(k + 1) % n];
        far |= is_far(c[k]);
        equal |= c[k].x == next.x && c[k].y == next.y;
    }
    return far ? 17 : equal ? 18 : 0;
}

static int is_between(whole a, whole n, whole b) { return (a <= n && n <= b) || (b <= n && n <= a); }

/* "On a side or a corner" */
static int is_on(spot a, spot b, spot p)
{
    whole along = (whole)p.x - a.x, up = (whole)p.y - a.y;
    return along * ((whole)b.y - a.y) == up * ((whole)b.x - a.x) && is_between(a.x, p.x, b.x) &&
           is_between(a.y, p.y, b.y);
}

/* "the half line towards positive x crosses": the side has its point at p's height to the right of p. "A side counting
 * when exactly one of its ends lies strictly above the point's y". */
static int is_crossed(spot a, spot b, spot p)
{
    if ((a.y > p.y) == (b.y > p.y))
        return 0;
    spot low = a.y < b.y ? a : b, high = a.y < b.y ? b : a;
    whole rise = (whole)high.y - low.y;
    return ((whole)high.x - low.x) * ((whole)p.y - low.y) > ((whole)p.x - low.x) * rise;
}

uint32_t by_the_rule(const outline *o, spot p)
{
    unsigned number = refusal(o, p), crossed = 0;
    size_t n = o->numbers / 2;
    if (number)
        return REFUSED(number);
    for (size_t k = 0; k < n; k++) {
        if (is_on(o->corners[k], o->corners[(k + 1) % n], p))
            return ON_BOUNDARY;
        crossed += (unsigned)is_crossed(o->corners[k], o->corners[(k + 1) % n], p);
    }
    return crossed % 2 ? INSIDE : OUTSIDE;
}
