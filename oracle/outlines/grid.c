/* Every list of so many corners in the grid of 4 by 4, with the points of the grid and of a margin around it. */
#include "outlines.h"

enum { SIDE = 4, SPOTS = SIDE * SIDE };

static void grid_points(task *t)
{
    for (int x = -1; x <= SIDE; x++)
        for (int y = -1; y <= SIDE; y++)
            t->points[t->count++] = (spot){x, y};
}

/* Whether no other start of the list has a smaller spot, and the other direction no smaller second one. Of every list
 * there is an order for which this holds. */
static int is_first_order(const int *spots, int corners)
{
    for (int k = 1; k < corners; k++)
        if (spots[k] < spots[0])
            return 0;
    return spots[1] <= spots[corners - 1];
}

/* Up to four corners every list is for others in all its orders; of five corners in the first. */
void grid_tasks(int corners)
{
    task t = {.shape.numbers = 2 * (size_t)corners};
    grid_points(&t);
    for (long list = 0; list < 1L << 4 * corners; list++) {
        int spots[ROOM];
        for (int k = 0; k < corners; k++) {
            spots[k] = (int)(list >> 4 * k) % SPOTS;
            t.shape.corners[k] = (spot){spots[k] / SIDE, spots[k] % SIDE};
        }
        t.for_others = corners < 5 || is_first_order(spots, corners);
        give(&t);
    }
    end_batch();
}
