/* list [COUNT [SEED]]: prints the outlines and points that others are asked about, with the library's answers. A line
 * has S for a simple outline or N, the count of corners, x and y of each, then x, y and answer of each point. */
#include "outlines.h"
#include <stdio.h>
#include <stdlib.h>

static void print(const task *t)
{
    size_t n = t->shape.numbers / 2;
    if (!t->for_others || by_the_rule(&t->shape, t->points[0]) >> 31)
        return;
    printf("%c %zu", is_simple(&t->shape) ? 'S' : 'N', n);
    for (size_t k = 0; k < n; k++)
        printf(" %d %d", t->shape.corners[k].x, t->shape.corners[k].y);
    for (int k = 0; k < t->count; k++)
        printf(" %d %d %u", t->points[k].x, t->points[k].y, t->said[k]);
    putchar('\n');
}

int main(int argc, char **argv)
{
    long count = argc > 1 ? atol(argv[1]) : 20000;
    uint64_t seed = argc > 2 ? strtoull(argv[2], NULL, 10) : 1;
    start_batches(print);
    for (int corners = 3; corners <= 5; corners++)
        grid_tasks(corners);
    simple_tasks(count, seed);
    tangled_tasks(count, seed);
    return 0;
}
