/* The library's side. Linked: `misonkandi_point_in_outline` is called here. With FAR: a program that has the archive
 * in it (far_outlines.c) is asked, as ../far/run_far.c does it. */
#include "outlines.h"

#ifndef FAR

#include "misonkandi.h"

void all_by_library(task *tasks, long count)
{
    for (task *t = tasks; t < tasks + count; t++) {
        const int32_t *xy = t->shape.numbers ? &t->shape.corners[0].x : NULL;
        for (int k = 0; k < t->count; k++)
            t->said[k] = misonkandi_point_in_outline(xy, t->shape.numbers, t->points[k].x, t->points[k].y);
    }
}

#else

#include "../far/run_far.h"
#include "far_outlines.h"

static void send(FILE *to, const task *t)
{
    size_t numbers = t->shape.numbers, points = (size_t)t->count;
    const uint32_t head[SENT_HEAD / 4] = {(uint32_t)numbers, (uint32_t)points};
    int whole = fwrite(head, SENT_HEAD, 1, to) == 1 && fwrite(t->shape.corners, 4, numbers, to) == numbers &&
                fwrite(t->points, 8, points, to) == points;
    need(whole, "a task wasn't written");
}

void all_by_library(task *tasks, long count)
{
    FILE *in = tmpfile(), *out = tmpfile();
    need(in && out, "no room for a file");
    for (long i = 0; i < count; i++)
        send(in, &tasks[i]);
    run_far_side(in, out);
    for (long i = 0; i < count; i++)
        need(fread(tasks[i].said, 4, (size_t)tasks[i].count, out) == (size_t)tasks[i].count, "an answer is missing");
    fclose(in);
    fclose(out);
}

#endif
