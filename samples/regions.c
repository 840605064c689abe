/* Says what the library answers of pairs of boxes. Standard input has eight numbers for each pair: x, y, u, v of A, then
 * of B. A line for each: the matrix, then the name of the region. */
#include "misonkandi.h"
#include <stdio.h>

int main(void) {
    double a[4], b[4];
    while (scanf("%lf%lf%lf%lf%lf%lf%lf%lf", &a[0], &a[1], &a[2], &a[3], &b[0], &b[1], &b[2], &b[3]) == 8) {
        uint8_t cells[MISONKANDI_CELLS], letters[MISONKANDI_CELLS], name[MISONKANDI_MOST_REGION_NAME_BYTES];
        uint32_t word = misonkandi_relate_places(MISONKANDI_BOX, a[0], a[1], a[2], a[3],
                                                 MISONKANDI_BOX, b[0], b[1], b[2], b[3], cells);
        uint32_t region = misonkandi_region_of_boxes(a[0], a[1], a[2], a[3], b[0], b[1], b[2], b[3]);
        uint32_t count = misonkandi_region_name(region, name, sizeof name, 0);
        if (word != 0 || MISONKANDI_REFUSED(region) || MISONKANDI_REFUSED(count)) return 1;
        misonkandi_to_text(cells, letters);
        printf("%.9s %.*s\n", (const char *)letters, (int)count, (const char *)name);
    }
    return 0;
}
