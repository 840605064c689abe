/* Outlines and points, what was said of them, and the parts that the programs on outlines share. */
#ifndef OUTLINES_H
#define OUTLINES_H

#include "corners.h"

enum { INSIDE = 1, ON_BOUNDARY = 2, OUTSIDE = 3 };

/* Room for the points that are asked of one outline. */
enum { POINTS = 36 };

/* An outline, its points, and the library's words. Not all are for others too, for GEOS and JTS: of lists that differ
 * in start and direction alone one may be enough. */
typedef struct {
    outline shape;
    int for_others;
    int count;
    spot points[POINTS];
    uint32_t said[POINTS];
} task;

/* rule.c: the rule of request R-8, a second time. */
uint32_t by_the_rule(const outline *o, spot p);

/* simple.c: exact answers on sides. turn: 1 if c lies left of the line from a to b, -1 right of it, 0 on it. */
int turn(spot a, spot b, spot c);
int sides_meet(spot a, spot b, spot c, spot d);
int is_simple(const outline *o);

/* grid.c, simple_tasks.c, tangles.c, refused.c: which outlines there are. Each hands its tasks to `give`. */
void grid_tasks(int corners);
void simple_tasks(long count, uint64_t seed);
void tangled_tasks(long count, uint64_t seed);
void refused_tasks(void);

/* shapes.c: a simple outline of at most so many corners. */
void draw_simple(outline *o, size_t corners, const spread *s);

/* points.c: a whole point of one side; points of each kind in, on and around an outline; one point. */
spot on_side_of(const outline *o, size_t side);
void draw_points(task *t);
spot draw_point(const outline *o);

/* batch.c: the library is asked about many tasks at once; then each is judged. */
void start_batches(void (*judge)(const task *t));
void give(const task *t);
void end_batch(void);

/* library.c: the library's side; the archive itself, under an emulator where it is for another processor. */
void all_by_library(task *tasks, long count);

#endif
