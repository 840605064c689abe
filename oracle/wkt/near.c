/* Every text that is one byte away from some short ones: cut at each place, with each byte taken out, and with every
 * byte at each place, changed or put in. */
#include "wkt.h"
#include <string.h>

static void give_changed(const text *t, size_t at, char byte)
{
    static text other;
    other = *t;
    put_in(&other, at, &byte, 1);
    give_text(&other);
    if (at < t->count) {
        take_out(&other, at + 1, 1);
        give_text(&other);
    }
}

static void give_near(const char *bytes)
{
    static text t, other;
    t.count = 0;
    put_in(&t, 0, bytes, strlen(bytes));
    for (size_t at = 0; at <= t.count; at++) {
        other = t;
        other.count = at;
        give_text(&other);
        for (int byte = 0; byte < 256; byte++)
            give_changed(&t, at, (char)byte);
    }
    for (size_t at = 0; at < t.count; at++) {
        other = t;
        take_out(&other, at, 1);
        give_text(&other);
    }
}

void near_tasks(void)
{
    static const char *const texts[] = {
        "POINT(1 2)",
        "Point ( -0  007 )",
        "LINESTRING(1 2,3 4)",
        "lineString (-10 0 , 1000000000 -1000000000)",
        "POLYGON((0 0,1 0,1 1,0 0))",
        "polygon ( ( 5 -5 , 6 5 , 1 1 , 05 -5 ) )",
    };
    for (size_t k = 0; k < sizeof texts / sizeof *texts; k++)
        give_near(texts[k]);
    end_batch();
}
