/* Why our library refuses a text that GEOS reads: 16 and 17 by the pairs and numbers that GEOS finds in it, 19 by the
 * byte at the place and by what the rule waited for there. Each reason is a sentence of request R-9. 22 is none: GEOS
 * refuses open rings too. */
#include "wkt_reasons.h"
#include <stdio.h>
#include <string.h>

#define SPACE " \t\n\r"
#define OTHER_SPACE "\t\n\r\v\f"

/* So many bytes of a text are printed. */
enum { SHOWN = 60 };

/* For 19: one of these bytes where the rule waits for this. NULL is any byte. */
static const struct {
    state now;
    const char *bytes, *reason;
} stops[] = {
    {KEYWORD, SPACE, "white space before the keyword"},
    {KEYWORD, "MGAmga", "another kind: MULTI.., GEOMETRYCOLLECTION, LINEARRING"},
    {OPENING, "Ee", "EMPTY"},
    {OPENING, "ZMzm", "Z, M or ZM behind the keyword"},
    {OPENING, OTHER_SPACE, "white space other than the space"},
    {NUMBER, OTHER_SPACE, "white space other than the space"},
    {NUMBER, "+", "a plus before a number"},
    {NUMBER, ".", "a fraction or an exponent"},
    {NUMBER, "IiNn", "inf or nan"},
    {NUMBER_END, ".Ee", "a fraction or an exponent"},
    {NUMBER_END, "Xx", "a hexadecimal number"},
    {NUMBER_END, OTHER_SPACE, "white space other than the space"},
    {PAIR_END, OTHER_SPACE, "white space other than the space"},
    {PAIR_END, "-+.0123456789IiNn", "a third number in a pair"},
    {RING_END, ",", "a second ring"},
    {RING_END, OTHER_SPACE, "white space other than the space"},
    {BEHIND, SPACE, "white space behind the last bracket"},
    {BEHIND, NULL, "anything else behind the last bracket"},
};

enum { STOPS = sizeof stops / sizeof *stops, REASONS = STOPS + 3 };

static struct {
    const char *reason;
    long count;
    text shortest;
} met[REASONS];

static const char *reason_of_stop(const text *t, uint64_t place, state now)
{
    for (int k = 0; k < STOPS && place < t->count; k++) {
        const char *bytes = stops[k].bytes;
        if (now == stops[k].now && (!bytes || (t->bytes[place] && strchr(bytes, t->bytes[place]))))
            return stops[k].reason;
    }
    return NULL;
}

/* GEOS builds rings of three pairs, and no line or ring with fewer than there may be. */
static const char *reason_of_count(const GEOSGeometry *g)
{
    unsigned pairs = pairs_in(g);
    if (GEOSGeomTypeId_r(geos(), g) == GEOS_LINESTRING)
        return pairs > MOST ? "more than 64 corners" : NULL;
    if (pairs == 3)
        return "a ring of three pairs";
    return pairs > MOST + 1 ? "more than 64 corners" : NULL;
}

static const char *reason_of(const text *t, const GEOSGeometry *g, const reading *r, state now)
{
    switch (r->word >> 8 & 255) {
    case BAD_TEXT: return reason_of_stop(t, r->answer[2], now);
    case CORNER_COUNT: return reason_of_count(g);
    case OUT_OF_RANGE: return is_far(g) ? "a number beyond the range" : NULL;
    default: return NULL;
    }
}

int count_reason(const text *t, const GEOSGeometry *g, const reading *r, state now)
{
    const char *reason = reason_of(t, g, r, now);
    int k = 0;
    if (!reason)
        return 0;
    while (met[k].reason && strcmp(met[k].reason, reason))
        k++;
    if (!met[k].reason || t->count < met[k].shortest.count)
        met[k].shortest = *t;
    met[k].reason = reason;
    met[k].count++;
    return 1;
}

void print_reasons(void)
{
    printf("GEOS reads, and ours refuses by request R-9:\n");
    for (int k = 0; k < REASONS && met[k].reason; k++) {
        const text *t = &met[k].shortest;
        printf("  %s: %ld, the shortest `", met[k].reason, met[k].count);
        for (size_t i = 0; i < t->count && i < SHOWN; i++)
            printf(t->bytes[i] < ' ' || t->bytes[i] > '~' ? "\\x%02x" : "%c", t->bytes[i]);
        printf("%s`\n", t->count > SHOWN ? ".." : "");
    }
}
