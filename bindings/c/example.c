/* A plan record from bytes to nine letters, a predicate by its row and one by its name, a refused pattern, one pattern
 * asked of many rooms, a floor of records in one call and in pieces, which record made a cell, points in an outline,
 * two outlines and the records of both, shapes read from text and written back, and region names. */
#include "misonkandi.h"
#include <stdio.h>
#include <string.h>

enum { NONE = MISONKANDI_NONE, I = MISONKANDI_INSIDE, B = MISONKANDI_ON_BOUNDARY, E = MISONKANDI_OUTSIDE };

/* A node on the boundary of both areas, where four walls end: A's outline runs north and south, B's east and west. */
static const uint8_t record[] = {
    0, 67, 1, MISONKANDI_NODE, B, B, B, B, 4, /* length, version, kind, positions, four ends */
    0, 0, 0, 2,         0, 0, 0, 0,         MISONKANDI_AREA, NONE, NONE, NONE, B, I, E, /* east: B's inside is left */
    0, 0, 0, 0,         0, 0, 0, 2,         MISONKANDI_AREA, B, I, E, NONE, NONE, NONE, /* north: A's is left */
    255, 255, 255, 254, 0, 0, 0, 0,         MISONKANDI_AREA, NONE, NONE, NONE, B, E, I, /* west: B's is right */
    0, 0, 0, 0,         255, 255, 255, 254, MISONKANDI_AREA, B, E, I, NONE, NONE, NONE  /* south: A's is right */
};

static const uint8_t *bytes(const char *text) { return (const uint8_t *)text; }

static void tell_pattern(const uint8_t cells[MISONKANDI_CELLS], const char *pattern) {
    uint32_t word = misonkandi_matches(cells, bytes(pattern), strlen(pattern));
    if (!MISONKANDI_REFUSED(word))
        printf("%s %s\n", pattern, word == 1 ? "yes" : "no");
    else if (MISONKANDI_NUMBER(word) == MISONKANDI_REFUSAL_BAD_BYTE)
        printf("%s refused: a bad byte at %u\n", pattern, (unsigned)MISONKANDI_PLACE(word));
    else
        printf("%s refused %u\n", pattern, (unsigned)MISONKANDI_NUMBER(word));
}

/* A corner of A's outline outside B, a wall of A's within B, and a record of no such kind. */
static const uint8_t plan[] = {
    0, 7, 1, MISONKANDI_NODE, B, E, NONE, NONE, 0,
    0, 9, 1, MISONKANDI_EDGE, MISONKANDI_AREA, B, I, E, I, I, I,
    0, 7, 1, 3, B, E, NONE, NONE, 0
};

static void tell_floor(const uint8_t cells[MISONKANDI_CELLS], const uint64_t answer[2]) {
    uint8_t text[MISONKANDI_CELLS];
    misonkandi_to_text(cells, text);
    printf("records %lu, bytes %lu, matrix %.9s\n", (unsigned long)answer[1], (unsigned long)answer[0],
           (const char *)text);
}

/* The refused record stands at the bytes used. */
static void tell_refused(uint32_t word, const uint64_t answer[2]) {
    if (MISONKANDI_REFUSED(word))
        printf("refused %u at %lu\n", (unsigned)MISONKANDI_NUMBER(word), (unsigned long)answer[0]);
}

static void tell_one_call(size_t count) {
    uint8_t cells[MISONKANDI_CELLS] = MISONKANDI_START;
    uint64_t answer[2];
    uint32_t word = misonkandi_floor(cells, plan, count, answer);
    printf("floor of %lu bytes: ", (unsigned long)count);
    tell_floor(cells, answer);
    tell_refused(word, answer);
}

/* Which record made each cell of the same floor: the wall, record 2, made II a 2. */
static void tell_made(void) {
    uint8_t cells[MISONKANDI_CELLS] = MISONKANDI_START;
    uint32_t numbers[MISONKANDI_TRACED_NUMBERS] = {0};
    uint64_t answer[2];
    misonkandi_traced_floor(cells, numbers, plan, 20, answer);
    printf("of %lu records, II by %lu, BE by %lu, EE by %lu\n", (unsigned long)numbers[9],
           (unsigned long)numbers[MISONKANDI_II], (unsigned long)numbers[MISONKANDI_BE],
           (unsigned long)numbers[MISONKANDI_EE]);
}

/* A gateway that reads the same floor in pieces, and asks after each. Within a record misonkandi_finish says refusal 1;
 * that one is for good only if no more bytes come. */
static void tell_pieces(size_t piece) {
    uint8_t cells[MISONKANDI_CELLS] = MISONKANDI_START;
    uint64_t answer[2];
    misonkandi_pieces state;
    size_t at, count;
    uint32_t word = 0;
    misonkandi_start(&state, cells);
    for (at = 0; at < sizeof plan && !MISONKANDI_REFUSED(word); at += count) {
        count = sizeof plan - at < piece ? sizeof plan - at : piece;
        word = misonkandi_push(&state, plan + at, count);
        misonkandi_finish(&state, cells, answer);
        printf("%lu bytes came: ", (unsigned long)count);
        tell_floor(cells, answer);
    }
    tell_refused(misonkandi_finish(&state, cells, answer), answer);
}

/* A room with a notch in its upper wall: x and y of each corner in turn. */
static const int32_t outline[] = {0, 0, 10, 0, 10, 6, 7, 6, 5, 3, 3, 6, 0, 6};

static void tell_point(int32_t x, int32_t y) {
    static const char *const where[] = {"", "inside", "on the boundary", "outside"};
    uint32_t word = misonkandi_point_in_outline(outline, sizeof outline / sizeof outline[0], x, y);
    if (!MISONKANDI_REFUSED(word))
        printf("(%ld, %ld) %s\n", (long)x, (long)y, where[word]);
    else
        printf("(%ld, %ld) refused %u\n", (long)x, (long)y, (unsigned)MISONKANDI_NUMBER(word));
}

/* A room against another outline: their matrix and how many records it is poured from, or what is wrong with them. */
static void tell_rooms_of(const int32_t *other, size_t numbers) {
    static const int32_t room[] = {0, 0, 10, 0, 10, 6, 0, 6};
    static const char *const where[] = {"of the first", "of the second", "across"};
    uint8_t cells[MISONKANDI_CELLS], text[MISONKANDI_CELLS], records[MISONKANDI_MOST_COMMISSION_BYTES];
    uint8_t poured[MISONKANDI_CELLS] = MISONKANDI_START;
    uint64_t answer[3], floor[2];
    uint32_t word = misonkandi_relate_outlines(room, 8, other, numbers, cells, answer), count;
    if (MISONKANDI_REFUSED(word)) {
        printf("outlines refused %u: %s", (unsigned)MISONKANDI_NUMBER(word), where[answer[0]]);
        if (MISONKANDI_NUMBER(word) >= MISONKANDI_REFUSAL_SIDES)
            printf(", sides %lu and %lu", (unsigned long)answer[1], (unsigned long)answer[2]);
        printf("\n");
        return;
    }
    count = misonkandi_commission(room, 8, other, numbers, records, sizeof records, 0);
    if (MISONKANDI_REFUSED(count) || misonkandi_floor(poured, records, count, floor) != 0) return;
    if (memcmp(cells, poured, sizeof cells) != 0) return;
    misonkandi_to_text(cells, text);
    printf("outlines %.9s, from %lu records of %u bytes\n", (const char *)text, (unsigned long)floor[1],
           (unsigned)count);
}

static void tell_outlines(void) {
    static const int32_t next_door[] = {10, 0, 16, 0, 16, 6, 10, 6}; /* they share a wall */
    static const int32_t cover[] = {5, 2, 12, 2, 12, 4, 5, 4};       /* through a wall that has no corner there */
    static const int32_t bow_tie[] = {1, 1, 4, 4, 4, 1, 1, 4};
    tell_rooms_of(next_door, 8);
    tell_rooms_of(cover, 8);
    tell_rooms_of(bow_tie, 8);
    tell_rooms_of(bow_tie, 4);
}

/* A shape's text from a plan tool, as it is written back. */
static void tell_text(const char *text) {
    int32_t xy[2 * MISONKANDI_MOST_CORNERS];
    uint64_t answer[3];
    uint8_t written[MISONKANDI_MOST_WKT_BYTES];
    uint32_t word = misonkandi_read_wkt(bytes(text), strlen(text), xy, answer);
    if (!MISONKANDI_REFUSED(word))
        word = misonkandi_write_wkt((uint32_t)answer[0], xy, 2 * (size_t)answer[1], written, sizeof written, 0);
    if (!MISONKANDI_REFUSED(word))
        printf("%.*s\n", (int)word, (const char *)written);
    else if (MISONKANDI_NUMBER(word) == MISONKANDI_REFUSAL_BAD_TEXT)
        printf("%s refused: no text goes on at %lu\n", text, (unsigned long)answer[2]);
    else
        printf("%s refused %u\n", text, (unsigned)MISONKANDI_NUMBER(word));
}

/* One pattern asked of many rooms: made into masks once, then all in one call. */
static void tell_rooms(const char *pattern) {
    static const char *const texts[3] = {"2FF1FF212", "212101212", "FFFFFFFF2"};
    uint32_t masks[MISONKANDI_MASKS], rooms[3];
    uint8_t answers[3], verdicts[3];
    int k;
    for (k = 0; k < 3; k++) {
        uint8_t cells[MISONKANDI_CELLS];
        if (MISONKANDI_REFUSED(misonkandi_from_text(cells, bytes(texts[k]), strlen(texts[k])))) return;
        rooms[k] = misonkandi_pack(cells);
    }
    if (MISONKANDI_REFUSED(misonkandi_masks(bytes(pattern), strlen(pattern), masks))) return;
    if (MISONKANDI_REFUSED(misonkandi_masks_match_all(masks, rooms, 3, answers, 3))) return;
    if (MISONKANDI_REFUSED(misonkandi_masks_verdict_all(masks, rooms, 3, verdicts, 3))) return;
    for (k = 0; k < 3; k++)
        printf("%s on %s: %s%s\n", pattern, texts[k], answers[k] == 1 ? "yes" : "no",
               verdicts[k] == MISONKANDI_OPEN ? "" : ", for good");
    printf("%lu of 3 rooms match\n", (unsigned long)misonkandi_masks_count(masks, rooms, 3));
}

/* Egenhofer's name of a cover area, a box, beside a room's box. */
static void tell_region(double x, double y, double u, double v) {
    uint8_t name[MISONKANDI_MOST_REGION_NAME_BYTES];
    uint32_t region = misonkandi_region_of_boxes(x, y, u, v, 0, 0, 6, 6);
    uint32_t count = misonkandi_region_name(region, name, sizeof name, 0);
    if (MISONKANDI_REFUSED(region))
        printf("refused %u\n", (unsigned)MISONKANDI_NUMBER(region));
    else
        printf("region %u: %.*s\n", (unsigned)region, (int)count, (const char *)name);
}

int main(void) {
    uint8_t cells[MISONKANDI_CELLS] = MISONKANDI_START, text[MISONKANDI_CELLS];
    uint32_t used = misonkandi_record(cells, record, sizeof record);
    if (MISONKANDI_REFUSED(used)) return 1;
    misonkandi_to_text(cells, text);
    printf("used %u bytes, the matrix is %.9s\n", (unsigned)used, (const char *)text);
    printf("overlaps %s\n", misonkandi_predicate(cells, MISONKANDI_OVERLAPS) == 1 ? "yes" : "no");
    uint32_t row = misonkandi_predicate_named(bytes("touches"), strlen("touches"));
    if (row == MISONKANDI_NO_SUCH_ROW) return 1;
    printf("touches %s\n", misonkandi_verdict(cells, row) == MISONKANDI_NO_FOR_GOOD ? "no, for good" : "perhaps");
    tell_pattern(cells, "T*T***T**");
    tell_pattern(cells, "T*X******");
    tell_rooms("T*F**F***");
    tell_one_call(20);
    tell_one_call(19);
    tell_made();
    tell_pieces(16);
    tell_point(2, 3); /* level with the notch's corner (5, 3) */
    tell_point(5, 5); /* in the notch */
    tell_point(8, 6);
    tell_point(2000000000, 3);
    tell_outlines();
    tell_text("polygon((0 0,10 0,10 6,-0 06,0 0))");
    tell_text("LINESTRING()");
    tell_text("LINESTRING(1 2)");
    tell_text("POLYGON((0 0,4 0,4 4,0 1))");
    tell_region(2, 2, 4, 4);
    tell_region(0, 2, 4, 4);
    tell_region(6, 0, 8, 6);
    tell_region(4, 4, 4, 6);
    return 0;
}
