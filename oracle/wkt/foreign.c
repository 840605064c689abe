/* Texts that other programs read and request R-9 doesn't name: a good text with something put in, and other kinds. */
#include "../outlines/draw.h"
#include "wkt.h"
#include <string.h>

/* Where something is put in: before the text, behind the keyword, before or behind a number, behind a pair, behind a
 * ring, behind the text; or in the place of a number, or of all behind the keyword. */
typedef enum { FRONT, AT_KEYWORD, AT_NUMBER, PAST_NUMBER, PAST_PAIR, PAST_RING, END, FOR_NUMBER, FOR_REST } place;

static const struct {
    place at;
    const char *bytes;
} pieces[] = {
    {FRONT, " "}, {FRONT, "\t"}, {FRONT, "\r\n"}, {FRONT, "MULTI"}, {FRONT, "SRID=4326;"},
    {AT_KEYWORD, "\t"}, {AT_KEYWORD, "\n "}, {AT_KEYWORD, " Z"}, {AT_KEYWORD, " m "}, {AT_KEYWORD, " zM"},
    {AT_KEYWORD, "Z"},
    {AT_NUMBER, "+"}, {AT_NUMBER, "\t"}, {AT_NUMBER, "\n"}, {AT_NUMBER, "\v"}, {AT_NUMBER, "0x"}, {AT_NUMBER, "1."},
    {AT_NUMBER, "."}, {AT_NUMBER, "-"}, {AT_NUMBER, "- "}, {AT_NUMBER, "("},
    {PAST_NUMBER, ".5"}, {PAST_NUMBER, ".0"}, {PAST_NUMBER, "."}, {PAST_NUMBER, "e2"}, {PAST_NUMBER, "E-2"},
    {PAST_NUMBER, "e400"}, {PAST_NUMBER, "\t"}, {PAST_NUMBER, "\r"}, {PAST_NUMBER, "f"}, {PAST_NUMBER, "_0"},
    {PAST_PAIR, " 7"}, {PAST_PAIR, " -7 +8"}, {PAST_PAIR, " .5"}, {PAST_PAIR, " nan"}, {PAST_PAIR, " 7 8 9"},
    {PAST_PAIR, "\t"}, {PAST_PAIR, ")"}, {PAST_PAIR, ";"}, {PAST_PAIR, ","},
    {PAST_RING, ",(0 0,1 0,1 1,0 0)"}, {PAST_RING, " , EMPTY"}, {PAST_RING, "\n"}, {PAST_RING, ",()"},
    {END, " "}, {END, "\n"}, {END, "\t"}, {END, " POINT(1 2)"}, {END, ")"}, {END, ";"}, {END, "x"},
    {FOR_NUMBER, "inf"}, {FOR_NUMBER, "-Infinity"}, {FOR_NUMBER, "NaN"}, {FOR_NUMBER, "-"}, {FOR_NUMBER, "x"},
    {FOR_REST, " EMPTY"}, {FOR_REST, " empty"}, {FOR_REST, " z EMPTY"}, {FOR_REST, "(EMPTY)"}, {FOR_REST, "()"},
    {FOR_REST, "EMPTY"}, {FOR_REST, "(( ))"}, {FOR_REST, ""},
};

static int is_part(uint8_t byte) { return byte == '-' || (byte >= '0' && byte <= '9'); }

/* Where some number begins, and where it ends. */
static size_t draw_number(const text *t)
{
    size_t at = draw() % t->count;
    while (!is_part(t->bytes[at]))
        at = (at + 1) % t->count;
    while (is_part(t->bytes[at - 1]))
        at--;
    return at;
}

static size_t past_number(const text *t, size_t at)
{
    while (is_part(t->bytes[at]))
        at++;
    return at;
}

/* The place of the next of these bytes. */
static size_t next_of(const text *t, size_t at, const char *bytes)
{
    while (!strchr(bytes, t->bytes[at]))
        at++;
    return at;
}

static size_t place_of(const text *t, place at)
{
    switch (at) {
    case FRONT: return 0;
    case END: return t->count;
    case AT_NUMBER:
    case FOR_NUMBER: return draw_number(t);
    case PAST_NUMBER: return past_number(t, draw_number(t));
    case PAST_PAIR: return next_of(t, draw_number(t), ",)");
    case PAST_RING: return next_of(t, 0, ")") + 1;
    default: return next_of(t, 0, " (");
    }
}

static void make_foreign(text *t)
{
    size_t k = draw() % (sizeof pieces / sizeof *pieces), at = place_of(t, pieces[k].at);
    if (pieces[k].at == FOR_NUMBER)
        take_out(t, at, past_number(t, at) - at);
    if (pieces[k].at == FOR_REST)
        t->count = at;
    put_in(t, at, pieces[k].bytes, strlen(pieces[k].bytes));
}

static void give_bytes(const char *bytes)
{
    static text t;
    t.count = 0;
    put_in(&t, 0, bytes, strlen(bytes));
    give_text(&t);
}

void foreign_tasks(long count, uint64_t seed)
{
    static const char *const kinds[] = {
        "LINEARRING(0 0,1 0,1 1,0 0)",
        "MULTIPOINT((1 2),(3 4))",
        "MULTILINESTRING((1 2,3 4))",
        "MULTIPOLYGON(((0 0,1 0,1 1,0 0)))",
        "GEOMETRYCOLLECTION(POINT(1 2))",
        "TRIANGLE((0 0,1 0,1 1,0 0))",
        "CIRCULARSTRING(0 0,1 1,2 0)",
    };
    static text t;
    for (size_t k = 0; k < sizeof kinds / sizeof *kinds; k++)
        give_bytes(kinds[k]);
    start_draws(seed);
    for (long i = 0; i < count; i++) {
        draw_text(&t);
        make_foreign(&t);
        give_text(&t);
    }
    end_batch();
}
