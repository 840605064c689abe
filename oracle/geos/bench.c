/* Times the library, GEOS and the plain C rules in one process on the same pairs, turn by turn, and prints a Markdown table.
 * GEOS's geometries are built before the clock starts. Before a line is timed, the library must give its answer to each pair. */
#include "misonkandi.h"
#include "places.h"
#include "timing.h"
#include <stdio.h>
#include <stdlib.h>
#include <string.h>

enum { INPUTS = 32768, ROUNDS = 12, PASSES = 8 };

static pair *pairs;
static GEOSGeometry *built[INPUTS][2];
static volatile unsigned sink;

static void time_geos(void)
{
    for (int i = 0; i < INPUTS; i++) {
        char *said = GEOSRelate_r(geos(), built[i][0], built[i][1]);
        sink += (unsigned char)said[4];
        GEOSFree_r(geos(), said);
    }
}

static void time_library(void)
{
    for (int n = 0; n < PASSES; n++)
        for (int i = 0; i < INPUTS; i++) {
            const place *a = &pairs[i].a, *b = &pairs[i].b;
            uint8_t cells[9];
            sink += misonkandi_relate_places(a->kind, a->x0, a->y0, a->x1, a->y1, b->kind, b->x0, b->y0, b->x1, b->y1, cells);
            sink += cells[4];
        }
}

static void time_rules(void)
{
    for (int n = 0; n < PASSES; n++)
        for (int i = 0; i < INPUTS; i++) {
            char letters[10];
            if (are_places(&pairs[i]))
                by_the_rules(&pairs[i], letters);
            sink += (unsigned char)letters[4];
        }
}

static void check(const char *name)
{
    for (int i = 0; i < INPUTS; i++) {
        char letters[10];
        answer said = by_library(&pairs[i]);
        by_geos(built[i][0], built[i][1], letters);
        for (int k = 0; k < 9; k++)
            if (said.word != 0 || "F012"[said.cells[k] & 3] != letters[k]) {
                fprintf(stderr, "%s: the library and GEOS differ\n", name);
                exit(1);
            }
    }
}

static void measure(const char *name, uint32_t a, uint32_t b)
{
    double theirs = 0, ours = 0, rules = 0;
    pairs = kinds_pairs(a, b, INPUTS, 1);
    for (int i = 0; i < INPUTS; i++) {
        built[i][0] = geometry(&pairs[i].a, 0);
        built[i][1] = geometry(&pairs[i].b, 0);
    }
    check(name);
    for (int n = 0; n < ROUNDS; n++) {
        round_of(time_geos, INPUTS, &theirs);
        round_of(time_library, INPUTS * PASSES, &ours);
        round_of(time_rules, INPUTS * PASSES, &rules);
    }
    printf("| %s | %.0f | %.1f | %.1f | %.0f |\n", name, theirs, ours, rules, theirs / ours);
    for (int i = 0; i < INPUTS; i++) {
        GEOSGeom_destroy_r(geos(), built[i][0]);
        GEOSGeom_destroy_r(geos(), built[i][1]);
    }
    free(pairs);
}

int main(void)
{
    start_geos();
    printf("Best of %d rounds over %d random pairs. GEOS %s, geometries built beforehand. Ours: %s, called through the C\n"
           "interface.\n\n",
           ROUNDS, INPUTS, GEOSversion(), OURS);
    printf("| pair | GEOS, ns | ours, ns | plain C rules, ns | GEOS / ours |\n|---|---:|---:|---:|---:|\n");
    measure("box with box", 1, 1);
    measure("point in box", 0, 1);
    measure("box with point", 1, 0);
    return 0;
}
