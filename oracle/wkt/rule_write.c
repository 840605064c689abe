/* Request R-9's writing, a second time, in plain C. */
#include "wkt.h"
#include <string.h>

typedef struct {
    size_t count;
    char bytes[BUFFER];
} spelling;

static void add(spelling *to, const char *word)
{
    while (*word)
        to->bytes[to->count++] = *word++;
}

static void add_number(spelling *to, int32_t number)
{
    char digits[12] = "";
    int k = 11;
    int64_t size = number < 0 ? -(int64_t)number : number;
    do
        digits[--k] = (char)('0' + size % 10);
    while (size /= 10);
    if (number < 0)
        add(to, "-");
    add(to, digits + k);
}

static void add_pair(spelling *to, spot p)
{
    add_number(to, p.x);
    add(to, " ");
    add_number(to, p.y);
}

static void add_shape(spelling *to, const shape *s)
{
    static const char *const openings[] = {"POINT (", "LINESTRING (", "POLYGON (("};
    add(to, openings[s->kind - 1]);
    for (size_t k = 0; k < s->list.numbers / 2; k++) {
        if (k)
            add(to, ", ");
        add_pair(to, s->list.corners[k]);
    }
    if (s->kind == POLYGON) {
        add(to, ", ");
        add_pair(to, s->list.corners[0]);
        add(to, ")");
    }
    add(to, ")");
}

static int count_fits(const shape *s)
{
    static const size_t least[] = {1, 2, 3}, most[] = {1, MOST, MOST};
    size_t n = s->list.numbers;
    if (s->kind < POINT || s->kind > POLYGON || n % 2)
        return 0;
    return n / 2 >= least[s->kind - 1] && n / 2 <= most[s->kind - 1];
}

static int some_far(const shape *s)
{
    for (size_t k = 0; k < s->list.numbers / 2; k++) {
        spot p = s->list.corners[k];
        if (p.x > LIMIT || p.x < -LIMIT || p.y > LIMIT || p.y < -LIMIT)
            return 1;
    }
    return 0;
}

void write_by_rule(const shape *s, size_t room, size_t offset, writing *w)
{
    spelling all = {0};
    memset(w, HELD, sizeof *w);
    w->word = REFUSED(CORNER_COUNT);
    if (!count_fits(s))
        return;
    w->word = REFUSED(OUT_OF_RANGE);
    if (some_far(s))
        return;
    add_shape(&all, s);
    w->word = REFUSED(NO_ROOM);
    if (offset > room || all.count > room - offset)
        return;
    memcpy(w->buffer + offset, all.bytes, all.count);
    w->word = (uint32_t)all.count;
}

int same_writing(const writing *a, const writing *b)
{
    return a->word == b->word && !memcmp(a->buffer, b->buffer, sizeof a->buffer);
}
