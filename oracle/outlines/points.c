/* Points that are asked of an outline: anywhere, at corners, level with corners, on sides, and beside sides as near as
 * a whole point can be. */
#include "draw.h"
#include "outlines.h"

/* The greatest number that divides both, which is a * x + b * y. */
static int64_t divisor(int64_t a, int64_t b, int64_t *x, int64_t *y)
{
    if (b == 0) {
        *x = a < 0 ? -1 : 1;
        *y = 0;
        return a < 0 ? -a : a;
    }
    int64_t g = divisor(b, a % b, y, x);
    *y -= a / b * *x;
    return g;
}

static int64_t up_to(int64_t n) { return (int64_t)(draw() % (uint64_t)(n + 1)); }

static int64_t step(void) { return up_to(2) - 1; }

static spot within_limits(int64_t x, int64_t y)
{
    x = x > LIMIT ? LIMIT : x < -LIMIT ? -LIMIT : x;
    y = y > LIMIT ? LIMIT : y < -LIMIT ? -LIMIT : y;
    return (spot){(int32_t)x, (int32_t)y};
}

/* A number between the least and the greatest of all corners, or up to an eighth beyond. */
static int64_t in_reach(const outline *o, int of_y)
{
    int64_t low = LIMIT, high = -LIMIT;
    for (size_t k = 0; k < o->numbers / 2; k++) {
        int64_t n = of_y ? o->corners[k].y : o->corners[k].x;
        low = n < low ? n : low;
        high = n > high ? n : high;
    }
    int64_t margin = 1 + (high - low) / 8;
    return low - margin + up_to(high - low + 2 * margin);
}

static spot any_corner(const outline *o) { return o->corners[draw() % (o->numbers / 2)]; }

static spot anywhere(const outline *o)
{
    int64_t x = in_reach(o, 0);
    return within_limits(x, in_reach(o, 1));
}

static spot by_corner(const outline *o)
{
    spot c = any_corner(o);
    int64_t x = c.x + step();
    return within_limits(x, c.y + step());
}

static spot level(const outline *o)
{
    int64_t x = draw() % 2 ? in_reach(o, 0) : any_corner(o).x + step();
    return within_limits(x, any_corner(o).y);
}

spot on_side_of(const outline *o, size_t side)
{
    spot a = o->corners[side], b = o->corners[(side + 1) % (o->numbers / 2)];
    int64_t dx = (int64_t)b.x - a.x, dy = (int64_t)b.y - a.y, x, y;
    int64_t parts = divisor(dx, dy, &x, &y), k = up_to(parts);
    return parts == 0 ? a : within_limits(a.x + dx / parts * k, a.y + dy / parts * k);
}

static spot on_side(const outline *o) { return on_side_of(o, draw() % (o->numbers / 2)); }

/* Some part of the way along a side, cut down to a whole point, or next to that. */
static spot near_side(const outline *o)
{
    size_t side = draw() % (o->numbers / 2);
    spot a = o->corners[side], b = o->corners[(side + 1) % (o->numbers / 2)];
    int64_t part = up_to(1 << 30);
    int64_t x = a.x + (((int64_t)b.x - a.x) * part >> 30), y = a.y + (((int64_t)b.y - a.y) * part >> 30);
    x += step();
    return within_limits(x, y + step());
}

/* The products of `turn` differ here by no more than the greatest divisor of the side's differences. */
static spot beside_side(const outline *o)
{
    size_t side = draw() % (o->numbers / 2);
    spot a = o->corners[side], b = o->corners[(side + 1) % (o->numbers / 2)];
    int64_t dx = (int64_t)b.x - a.x, dy = (int64_t)b.y - a.y, x, y;
    int64_t parts = divisor(dx, dy, &x, &y);
    if (parts == 0)
        return a;
    int64_t k = up_to(parts), sign = draw() % 2 ? 1 : -1;
    return within_limits(a.x + dx / parts * k - sign * y, a.y + dy / parts * k + sign * x);
}

static spot (*const kinds[7])(const outline *) = {anywhere, any_corner, by_corner, level,
                                                  on_side,  near_side,  beside_side};

void draw_points(task *t)
{
    for (t->count = 0; t->count < POINTS; t->count++)
        t->points[t->count] = kinds[t->count % 7](&t->shape);
}

/* Half of these are anywhere. */
spot draw_point(const outline *o) { return kinds[draw() % 2 ? 0 : draw() % 7](o); }
