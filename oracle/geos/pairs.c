/* Which pairs of places are asked. */
#include "../outlines/draw.h"
#include "places.h"
#include <math.h>
#include <stdio.h>
#include <stdlib.h>

static pair *room(long count)
{
    pair *pairs = calloc((size_t)count, sizeof *pairs);
    if (!pairs) {
        fprintf(stderr, "no room for %ld pairs\n", count);
        exit(2);
    }
    return pairs;
}

/* Every place with whole coordinates from 0 to n, n at most 3. A point's second corner must not be looked at: NaN. */
static long grid(place *out, int n)
{
    long k = 0;
    for (int x0 = 0; x0 <= n; x0++)
        for (int y0 = 0; y0 <= n; y0++) {
            out[k++] = (place){0, x0, y0, NAN, NAN};
            for (int x1 = x0 + 1; x1 <= n; x1++)
                for (int y1 = y0 + 1; y1 <= n; y1++)
                    out[k++] = (place){1, x0, y0, x1, y1};
        }
    return k;
}

pair *grid_pairs(int n, long *count)
{
    place set[64];
    long k = grid(set, n);
    pair *pairs = room(k * k);
    *count = k * k;
    for (long i = 0; i < k; i++)
        for (long j = 0; j < k; j++)
            pairs[i * k + j] = (pair){set[i], set[j]};
    return pairs;
}

/* From -size to size, size up to 1,000,000; small sizes make ties likely. Every second 0 is -0. */
static double whole(int64_t size)
{
    int64_t n = (int64_t)(draw() % (uint64_t)(2 * size + 1)) - size;
    return n == 0 && draw() % 2 ? -0.0 : (double)n;
}

static void in_order(double *lo, double *hi)
{
    double t = *lo;
    if (*hi < t) {
        *lo = *hi;
        *hi = t;
    }
}

static place random_place(uint32_t kind, int64_t size)
{
    place p = {kind, whole(size), whole(size), 0, 0};
    if (!kind) {
        p.x1 = p.x0;
        p.y1 = p.y0;
        return p;
    }
    do {
        p.x1 = whole(size);
        p.y1 = whole(size);
    } while (p.x1 == p.x0 || p.y1 == p.y0);
    in_order(&p.x0, &p.x1);
    in_order(&p.y0, &p.y1);
    return p;
}

/* Takes corner coordinates of one place over into the other, so that ties happen at every size. */
static void tie(place *a, const place *b)
{
    double x = draw() % 2 ? b->x0 : b->x1, y = draw() % 2 ? b->y0 : b->y1;
    place t = *a;
    if (draw() % 2)
        *(draw() % 2 ? &t.x0 : &t.x1) = x;
    if (draw() % 2)
        *(draw() % 2 ? &t.y0 : &t.y1) = y;
    if (!t.kind) {
        t.x1 = t.x0;
        t.y1 = t.y0;
    }
    if (!t.kind || (t.x0 < t.x1 && t.y0 < t.y1))
        *a = t;
}

static pair random_pair(uint32_t a, uint32_t b, int64_t size)
{
    pair p = {random_place(a, size), random_place(b, size)};
    if (draw() % 2)
        tie(&p.a, &p.b);
    return p;
}

pair *random_pairs(long count, uint64_t seed)
{
    static const int64_t sizes[4] = {5, 100, 10000, 1000000};
    pair *pairs = room(count);
    start_draws(seed);
    for (long i = 0; i < count; i++) {
        uint32_t a = draw() % 4 != 0, b = draw() % 4 != 0;
        pairs[i] = random_pair(a, b, sizes[i % 4]);
    }
    return pairs;
}

/* Pairs of two given kinds, with coordinates up to 100 in size. */
pair *kinds_pairs(uint32_t a, uint32_t b, long count, uint64_t seed)
{
    pair *pairs = room(count);
    start_draws(seed);
    for (long i = 0; i < count; i++)
        pairs[i] = random_pair(a, b, 100);
    return pairs;
}

/* Values that make no place where they stand: kind, then a coordinate of each sort at each of the four. */
static long bad_places(place *out)
{
    const double bad[3] = {NAN, INFINITY, -INFINITY};
    long k = 0;
    for (int i = 0; i < 3; i++) {
        out[k++] = (place){0, bad[i], 0, 0, 0};
        out[k++] = (place){0, 0, bad[i], 0, 0};
        out[k++] = (place){1, bad[i], 0, 1, 1};
        out[k++] = (place){1, 0, bad[i], 1, 1};
        out[k++] = (place){1, 0, 0, bad[i], 1};
        out[k++] = (place){1, 0, 0, 1, bad[i]};
    }
    for (int x = -1; x <= 1; x++)
        for (int y = -1; y <= 1; y++)
            if (x < 1 || y < 1)
                out[k++] = (place){1, 5, 5, 5 + x, 5 + y};
    out[k++] = (place){1, 0.0, 0, -0.0, 1};
    out[k++] = (place){2, 0, 0, 1, 1};
    out[k++] = (place){UINT32_MAX, 0, 0, 1, 1};
    return k;
}

/* Each such value beside each good place of a small grid, on either side, and beside each other one. */
pair *refused_pairs(long *count)
{
    place bad[40], good[64];
    long m = bad_places(bad), n = grid(good, 2), k = 0;
    pair *pairs = room(m * (2 * n + m));
    for (long i = 0; i < m; i++) {
        for (long j = 0; j < n; j++) {
            pairs[k++] = (pair){bad[i], good[j]};
            pairs[k++] = (pair){good[j], bad[i]};
        }
        for (long j = 0; j < m; j++)
            pairs[k++] = (pair){bad[i], bad[j]};
    }
    *count = k;
    return pairs;
}
