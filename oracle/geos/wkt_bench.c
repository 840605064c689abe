/* Times reading and writing WKT in one process, the library and GEOS turn by turn on the same shapes, and prints a
 * Markdown table. A call is timed as a caller pays for it: GEOS's geometry is destroyed and its text freed within the
 * time, ours go into the caller's own arrays. The reader, the writer and the geometries to be written stand before the
 * clock starts. Before a line is timed, both must read and write the same. */
#include "../outlines/draw.h"
#include "misonkandi.h"
#include "timing.h"
#include "wkt_geos.h"
#include <stdio.h>
#include <stdlib.h>
#include <string.h>

/* Short rounds, and many: on a busy machine a long one is never left alone. */
enum { INPUTS = 256, ROUNDS = 200 };

static shape shapes[INPUTS];
static char texts[INPUTS][BUFFER];
static size_t lengths[INPUTS];
static GEOSGeometry *built[INPUTS];
static double least[2] = {1e9, 1e9};
static volatile uint64_t sink;

static uint32_t write_ours(int k, uint8_t *buffer)
{
    const shape *s = &shapes[k];
    return misonkandi_write_wkt(s->kind, &s->list.corners[0].x, s->list.numbers, buffer, BUFFER, 0);
}

static void time_our_reading(void)
{
    int32_t xy[NUMBERS];
    uint64_t answer[3];
    for (int k = 0; k < INPUTS; k++) {
        sink += misonkandi_read_wkt((const uint8_t *)texts[k], lengths[k], xy, answer);
        sink += answer[1];
    }
}

static void time_geos_reading(void)
{
    for (int k = 0; k < INPUTS; k++) {
        GEOSGeometry *g = geos_read(texts[k]);
        sink += g != NULL;
        GEOSGeom_destroy_r(geos(), g);
    }
}

static void time_our_writing(void)
{
    uint8_t buffer[BUFFER];
    for (int k = 0; k < INPUTS; k++) {
        sink += write_ours(k, buffer);
        sink += buffer[6];
    }
}

static void time_geos_writing(void)
{
    for (int k = 0; k < INPUTS; k++) {
        char *bytes = geos_write(built[k]);
        sink += (unsigned char)bytes[6];
        GEOSFree_r(geos(), bytes);
    }
}

static void need_same(int good)
{
    if (good)
        return;
    fprintf(stderr, "the library and GEOS don't read or write the same\n");
    exit(1);
}

/* The shape with number k is written by both, and its text read by both. */
static void check(int k)
{
    reading r;
    char *bytes = geos_write(built[k]);
    need_same(is_shape(built[k], &shapes[k]) && !strcmp(bytes, texts[k]));
    GEOSFree_r(geos(), bytes);
    r.word = misonkandi_read_wkt((const uint8_t *)texts[k], lengths[k], r.xy, r.answer);
    need_same(!r.word && r.answer[0] == shapes[k].kind && 2 * r.answer[1] == shapes[k].list.numbers);
    need_same(!memcmp(r.xy, shapes[k].list.corners, 4 * shapes[k].list.numbers));
}

/* Numbers of one or two digits, or of nine or ten. */
static int32_t draw_number(int digits)
{
    int32_t size = (int32_t)(digits == 2 ? draw() % 100 : 100000000 + draw() % 900000001);
    return draw() % 2 ? size : -size;
}

/* Shapes and their texts; how many bytes a text has on average. */
static double make(uint32_t kind, size_t corners, int digits)
{
    double all = 0;
    for (int k = 0; k < INPUTS; k++) {
        shapes[k].kind = kind;
        shapes[k].list.numbers = 2 * corners;
        for (size_t c = 0; c < corners; c++) {
            int32_t x = draw_number(digits);
            shapes[k].list.corners[c] = (spot){x, draw_number(digits)};
        }
        lengths[k] = write_ours(k, (uint8_t *)texts[k]);
        need_same(lengths[k] < BUFFER);
        texts[k][lengths[k]] = 0;
        built[k] = geos_read(texts[k]);
        need_same(built[k] != NULL);
        check(k);
        all += (double)lengths[k];
    }
    return all / INPUTS;
}

/* Bytes in nanoseconds as MB in seconds, and how many times as fast ours are. */
static void print_speeds(double bytes, double ours, double theirs, double *least_ratio)
{
    double ratio = theirs / ours;
    printf(" %.0f | %.0f | %.1f |", bytes / ours * 1000, bytes / theirs * 1000, ratio);
    if (ratio < *least_ratio)
        *least_ratio = ratio;
}

static void measure(const char *name, uint32_t kind, size_t corners, int digits)
{
    double best[4] = {0}, bytes = make(kind, corners, digits);
    for (int n = 0; n < ROUNDS; n++) {
        round_of(time_our_reading, INPUTS, &best[0]);
        round_of(time_geos_reading, INPUTS, &best[1]);
        round_of(time_our_writing, INPUTS, &best[2]);
        round_of(time_geos_writing, INPUTS, &best[3]);
    }
    printf("| %s | %s | %.0f |", name, digits == 2 ? "1, 2" : "9, 10", bytes);
    print_speeds(bytes, best[0], best[1], &least[0]);
    print_speeds(bytes, best[2], best[3], &least[1]);
    putchar('\n');
    for (int k = 0; k < INPUTS; k++)
        GEOSGeom_destroy_r(geos(), built[k]);
}

int main(void)
{
    static const int digits[2] = {2, 10};
    start_wkt_geos();
    start_draws(1);
    printf("Best of %d rounds over %d random shapes a line, turn by turn in one process. GEOS %s. Ours: %s,\n"
           "called through the C interface.\n\n",
           ROUNDS, INPUTS, GEOSversion(), OURS);
    printf("| shape | digits | bytes | read, MB/s | GEOS | ratio | write, MB/s | GEOS | ratio |\n"
           "|---|---|---:|---:|---:|---:|---:|---:|---:|\n");
    for (int k = 0; k < 2; k++) {
        measure("a point", POINT, 1, digits[k]);
        measure("a line of 4", LINE, 4, digits[k]);
        measure("a ring of 4", POLYGON, 4, digits[k]);
        measure("a ring of 16", POLYGON, 16, digits[k]);
        measure("a ring of 64", POLYGON, 64, digits[k]);
    }
    printf("\nThe least ratio: reading %.1f, writing %.1f.\n", least[0], least[1]);
    return 0;
}
