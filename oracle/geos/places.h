/* Two places, what was said of them, and the parts that the three programs of this folder share. */
#ifndef PLACES_H
#define PLACES_H

#include "context.h"
#include <stdint.h>

/* Kind 0 is a point (x0, y0), 1 a box (x0, y0)-(x1, y1), as the library's kinds. */
typedef struct {
    uint32_t kind;
    double x0, y0, x1, y1;
} place;

typedef struct {
    place a, b;
} pair;

/* The library's answer; what the nine bytes held before the call is HELD. Of two boxes their region's word too, and the
 * region of the nine bytes. */
typedef struct {
    uint32_t word;
    uint8_t cells[9];
    uint32_t boxes, region;
} answer;

enum { HELD = 9 };

/* Refusal 13 as the C interface has it: 2^31 plus 256 times the number. */
#define NOT_A_PLACE (0x80000000u + 256u * 13u)

/* rules.c: document 01's rules, a second time. */
void by_the_rules(const pair *p, char letters[10]);
int are_places(const pair *p);

/* regions.c: request R-13's number of nine letters, by its patterns. */
uint32_t region_of(const char letters[10]);
const char *region_name(int region);

/* pairs.c: which pairs there are. Those that allocate end the program if there is no room. */
pair *grid_pairs(int n, long *count);
pair *random_pairs(long count, uint64_t seed);
pair *refused_pairs(long *count);
pair *kinds_pairs(uint32_t a, uint32_t b, long count, uint64_t seed);

/* geos.c: GEOS's side. A box goes in as a polygon, its ring walked either way round. */
GEOSGeometry *geometry(const place *p, int clockwise);
void by_geos(const GEOSGeometry *a, const GEOSGeometry *b, char letters[10]);

/* library.c: the library's side; the archive itself, under an emulator where it is for another processor. */
answer by_library(const pair *p);
void all_by_library(const pair *pairs, answer *answers, long count);

#endif
