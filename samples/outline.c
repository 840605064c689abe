/* Says where points lie against an outline. Standard input is the count of the outline's numbers and these, x and y of
 * each corner in turn, then x and y of each point. A line for each point: the library's word. */
#include "misonkandi.h"
#include <inttypes.h>
#include <stdio.h>

int main(void) {
    int32_t xy[2 * MISONKANDI_MOST_CORNERS], x, y;
    size_t numbers, k;
    if (scanf("%zu", &numbers) != 1 || numbers > sizeof xy / sizeof xy[0]) return 1;
    for (k = 0; k < numbers; k++)
        if (scanf("%" SCNd32, &xy[k]) != 1) return 1;
    while (scanf("%" SCNd32 "%" SCNd32, &x, &y) == 2)
        printf("%" PRIu32 "\n", misonkandi_point_in_outline(xy, numbers, x, y));
    return 0;
}
