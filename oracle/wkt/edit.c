/* Changes of a text. One that has no room for them ends the program. */
#include "wkt.h"
#include <stdio.h>
#include <stdlib.h>
#include <string.h>

void put_in(text *t, size_t at, const char *bytes, size_t count)
{
    if (t->count + count > TEXT) {
        fprintf(stderr, "a text is too long\n");
        exit(2);
    }
    memmove(t->bytes + at + count, t->bytes + at, t->count - at);
    memcpy(t->bytes + at, bytes, count);
    t->count += count;
}

void take_out(text *t, size_t at, size_t count)
{
    memmove(t->bytes + at, t->bytes + at + count, t->count - at - count);
    t->count -= count;
}
