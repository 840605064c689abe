/* What misonkandi.h says of words, pointers, counts and the stack, tried on the library that is linked. Every byte that
 * is lent here stands against a page that nobody may touch: one byte too far, before or behind, ends the program. */
#define _DEFAULT_SOURCE
#include "misonkandi.h"
#include <math.h>
#include <pthread.h>
#include <stdio.h>
#include <stdlib.h>
#include <string.h>
#include <sys/mman.h>

static int wrong;

static void same(const char *what, unsigned long told, unsigned long meant) {
    if (told == meant) return;
    printf("%s: %lu, and not %lu\n", what, told, meant);
    wrong = 1;
}
#define SAME(told, meant) same(#told, (unsigned long)(told), (unsigned long)(meant))

/* ---- Memory ---- */

enum { ROOM = 1 << 18 };
typedef struct { uint8_t *start; } pages;

/* ROOM bytes between two stretches of as many that can't be read or written. */
static pages guarded(void) {
    pages p;
    uint8_t *all = mmap(NULL, 3 * ROOM, PROT_NONE, MAP_PRIVATE | MAP_ANONYMOUS, -1, 0);
    if (all == MAP_FAILED || mprotect(all + ROOM, ROOM, PROT_READ | PROT_WRITE) != 0) {
        puts("no memory");
        exit(2);
    }
    p.start = all + ROOM;
    return p;
}

/* Bytes copied to where the room ends, or to where it begins. */
static uint8_t *lent(pages p, const void *bytes, size_t count, int at_end) {
    uint8_t *place = at_end ? p.start + ROOM - count : p.start;
    if (count > 0) memcpy(place, bytes, count);
    return place;
}

/* ---- What is asked ---- */

typedef struct {
    uint8_t *cells, *text; /* nine bytes each; text is also a label's seven */
    const uint8_t *bytes;
    const int32_t *xy, *other; /* an outline or a shape; a second outline, of as many numbers */
    uint8_t *labels, *buffer;
    int32_t *corners; /* read from a text */
    uint64_t *answer;
    misonkandi_pieces *state;
    uint32_t *ten; /* a traced matrix's numbers */
    size_t count, room; /* of bytes, of the buffer's; of an outline or a shape, the count is of numbers */
} lendings;

typedef uint32_t call(const lendings *l);

static uint32_t from_text(const lendings *l) { return misonkandi_from_text(l->cells, l->bytes, l->count); }
static uint32_t raise_from_text(const lendings *l) { return misonkandi_raise_from_text(l->cells, l->bytes, l->count); }
static uint32_t to_text(const lendings *l) { misonkandi_to_text(l->cells, l->text); return 0; }
static uint32_t set(const lendings *l) { return misonkandi_set(l->cells, MISONKANDI_INSIDE, MISONKANDI_OUTSIDE, 3); }
static uint32_t set_at_least(const lendings *l) { return misonkandi_set_at_least(l->cells, 3, 2, 200); }
static uint32_t transpose(const lendings *l) { misonkandi_transpose(l->cells); return 0; }
static uint32_t named(const lendings *l) { return misonkandi_predicate_named(l->bytes, l->count); }
static uint32_t predicate(const lendings *l) { return misonkandi_predicate(l->cells, MISONKANDI_CROSSES); }
static uint32_t predicates(const lendings *l) { return misonkandi_predicates(l->cells); }
static uint32_t matches(const lendings *l) { return misonkandi_matches(l->cells, l->bytes, l->count); }
static uint32_t verdict(const lendings *l) { return misonkandi_verdict(l->cells, MISONKANDI_OVERLAPS); }
static uint32_t verdict_pattern(const lendings *l) { return misonkandi_verdict_pattern(l->cells, l->bytes, l->count); }
static uint32_t verdicts(const lendings *l) { misonkandi_verdicts(l->cells, l->labels + 224 - 11); return 0; }
static uint32_t pack(const lendings *l) { return misonkandi_pack(l->cells); }
static uint32_t unpack(const lendings *l) { misonkandi_unpack(misonkandi_pack(l->cells), l->cells); return 0; }
/* The masks are the last sixteen bytes of the labels, the rooms are an outline's numbers. */
static uint32_t *masks_in(const lendings *l) { return (uint32_t *)(void *)(l->labels + 224 - 16); }
static uint32_t masks(const lendings *l) { return misonkandi_masks(l->bytes, l->count, masks_in(l)); }
static uint32_t masks_match(const lendings *l) { return misonkandi_masks_match(masks_in(l), 0xFFFFFFFFu); }
static uint32_t masks_verdict(const lendings *l) { return misonkandi_masks_verdict(masks_in(l), 0xFFFFFFFFu); }
static const uint32_t *rooms_in(const lendings *l) { return (const uint32_t *)(const void *)l->xy; }
static uint32_t match_all(const lendings *l) {
    return misonkandi_masks_match_all(masks_in(l), rooms_in(l), l->count, l->buffer, l->room);
}
static uint32_t verdict_all(const lendings *l) {
    return misonkandi_masks_verdict_all(masks_in(l), rooms_in(l), l->count, l->buffer, l->room);
}
static uint32_t masks_count(const lendings *l) {
    return (uint32_t)misonkandi_masks_count(masks_in(l), rooms_in(l), l->count);
}
static uint32_t relate(const lendings *l) {
    return misonkandi_relate_places(MISONKANDI_BOX, 0, 0, 4, 4, MISONKANDI_BOX, 2, 2, 6, 6, l->cells);
}
static uint32_t region(const lendings *l) { return misonkandi_region(l->cells); }
static uint32_t region_of_boxes(const lendings *l) {
    (void)l;
    return misonkandi_region_of_boxes(0, 0, 4, 4, 2, 2, 6, 6);
}
static uint32_t region_named(const lendings *l) { return misonkandi_region_named(l->bytes, l->count); }
static uint32_t region_name(const lendings *l) {
    return misonkandi_region_name(MISONKANDI_REGION_NONE_OF_THESE, l->buffer, l->count, 0);
}
static uint32_t point_in_outline(const lendings *l) { return misonkandi_point_in_outline(l->xy, l->count, 1, 0); }
static uint32_t relate_outlines(const lendings *l) {
    return misonkandi_relate_outlines(l->xy, l->count, l->other, l->count, l->cells, l->answer);
}
static uint32_t commission(const lendings *l) {
    return misonkandi_commission(l->xy, l->count, l->other, l->count, l->buffer, l->room, 0);
}
static uint32_t bundle(const lendings *l) { return misonkandi_bundle(l->bytes, l->count, l->text); }
/* Room for the labels of all whole ends. */
static uint32_t star(const lendings *l) { return misonkandi_star(l->bytes, l->count, 1, 0, l->buffer, l->room); }
static uint32_t record(const lendings *l) { return misonkandi_record(l->cells, l->bytes, l->count); }
static uint32_t whole_floor(const lendings *l) {
    return misonkandi_floor(l->cells, l->bytes, l->count, l->answer);
}
static uint32_t traced_record(const lendings *l) {
    return misonkandi_traced_record(l->cells, l->ten, l->bytes, l->count);
}
static uint32_t traced_floor(const lendings *l) {
    return misonkandi_traced_floor(l->cells, l->ten, l->bytes, l->count, l->answer);
}
static uint32_t traced_transpose(const lendings *l) { misonkandi_traced_transpose(l->cells, l->ten); return 0; }
static uint32_t begin(const lendings *l) { misonkandi_start(l->state, l->cells); return 0; }
/* In two pieces, the first of which ends within a record. */
static uint32_t push(const lendings *l) {
    size_t half = l->count / 2;
    misonkandi_push(l->state, l->bytes, half);
    return misonkandi_push(l->state, half > 0 ? l->bytes + half : l->bytes, l->count - half);
}
static uint32_t finish(const lendings *l) { return misonkandi_finish(l->state, l->cells, l->answer); }
static uint32_t read_report(const lendings *l) { return misonkandi_read_report(l->cells, l->bytes, l->count); }
static uint32_t write_report(const lendings *l) { return misonkandi_write_report(l->cells, l->buffer, l->count, 0); }
static uint32_t write_short(const lendings *l) {
    return misonkandi_write_short_report(l->cells, l->buffer, l->count, 0);
}
static uint32_t convert(const lendings *l) {
    return misonkandi_convert_report(l->bytes, l->count, l->buffer, l->count, 0);
}
/* The long form is written, at the end of the labels' bytes. */
static uint32_t convert_short(const lendings *l) {
    return misonkandi_convert_report(l->bytes, l->count, l->labels, 224, 224 - MISONKANDI_REPORT_BYTES);
}
/* A node grows by a byte, an edge by none; written at the end of the buffer. */
static uint32_t convert_record(const lendings *l) {
    size_t offset = l->room > l->count ? l->room - l->count - 1 : l->room;
    return misonkandi_convert_record(l->bytes, l->count, l->buffer, l->room, offset);
}
static uint32_t read_wkt(const lendings *l) { return misonkandi_read_wkt(l->bytes, l->count, l->corners, l->answer); }
static uint32_t write_wkt(const lendings *l) {
    return misonkandi_write_wkt(MISONKANDI_SHAPE_POLYGON, l->xy, l->count, l->buffer, l->room, 0);
}

/* The bytes that a call is given: a text, a predicate's or a region's name, ends, a record of a node in version 1 or 2 or
 * of an edge, a floor of both in version 1, one of the longest record of version 2, a shape's text, a report, long or
 * short. Or the numbers of an outline, of two, or of a shape. */
enum { NO_ROW = 8388607 }; /* MISONKANDI_NO_SUCH_ROW, read as a refusal */
enum given { TEXT, NAME, REGION_NAME, ENDS, MANY, NODE, TWO, EDGE, FLOOR, LONG_FLOOR, OUTLINE, OUTLINES, SHAPE, WKT,
             REPORT, SHORT_REPORT };
enum { MOST_ENDS = MISONKANDI_MOST_ENDS, MOST_GIVEN = MISONKANDI_MOST_RECORD_BYTES + 11 };

static const struct {
    const char *name;
    call *call;
    enum given given;
    uint32_t none; /* no bytes, with NULL for the pointer: the number of the refusal, or 0 for an answer */
    int writes;    /* whether it writes cells */
} calls[] = {
    {"from_text", from_text, TEXT, 10, 1},
    {"raise_from_text", raise_from_text, TEXT, 10, 1},
    {"to_text", to_text, TEXT, 0, 0},
    {"set", set, TEXT, 0, 1},
    {"set_at_least", set_at_least, TEXT, 0, 1},
    {"transpose", transpose, TEXT, 0, 1},
    {"predicate_named", named, NAME, NO_ROW, 0},
    {"predicate", predicate, TEXT, 0, 0},
    {"predicates", predicates, TEXT, 0, 0},
    {"matches", matches, TEXT, 10, 0},
    {"verdict", verdict, TEXT, 0, 0},
    {"verdict_pattern", verdict_pattern, TEXT, 10, 0},
    {"verdicts", verdicts, TEXT, 0, 0},
    {"pack", pack, TEXT, 0, 0},
    {"unpack", unpack, TEXT, 0, 1},
    {"masks", masks, TEXT, 10, 0},
    {"masks_match", masks_match, TEXT, 0, 0},
    {"masks_verdict", masks_verdict, TEXT, 0, 0},
    {"match_all", match_all, OUTLINE, 0, 0},
    {"verdict_all", verdict_all, OUTLINE, 0, 0},
    {"masks_count", masks_count, OUTLINE, 0, 0},
    {"relate_places", relate, TEXT, 0, 1},
    {"region", region, TEXT, 0, 0},
    {"region_of_boxes", region_of_boxes, TEXT, 0, 0},
    {"region_named", region_named, REGION_NAME, NO_ROW, 0},
    {"region_name", region_name, REGION_NAME, 12, 0},
    {"point_in_outline", point_in_outline, OUTLINE, 16, 0},
    {"relate_outlines", relate_outlines, OUTLINES, 16, 1},
    {"commission", commission, OUTLINES, 16, 0},
    {"bundle", bundle, ENDS, 0, 0},
    {"bundle, 600", bundle, MANY, 0, 0},
    {"star", star, ENDS, 0, 0},
    {"star, 600", star, MANY, 0, 0},
    {"record, a node", record, NODE, 1, 1},
    {"record, 600", record, TWO, 1, 1},
    {"record, an edge", record, EDGE, 1, 1},
    {"floor", whole_floor, FLOOR, 0, 1},
    {"floor, 600", whole_floor, LONG_FLOOR, 0, 1},
    {"traced_record, a node", traced_record, NODE, 1, 1},
    {"traced_record, an edge", traced_record, EDGE, 1, 1},
    {"traced_floor", traced_floor, FLOOR, 0, 1},
    {"traced_transpose", traced_transpose, TEXT, 0, 1},
    {"start", begin, FLOOR, 0, 0},
    {"push", push, FLOOR, 0, 0},
    {"push, 600", push, LONG_FLOOR, 0, 0},
    {"finish", finish, FLOOR, 0, 1},
    {"read_report", read_report, REPORT, 1, 1},
    {"write_report", write_report, REPORT, 12, 0},
    {"read, short", read_report, SHORT_REPORT, 1, 1},
    {"write_short", write_short, SHORT_REPORT, 12, 0},
    {"convert", convert, REPORT, 1, 0},
    {"convert, short", convert_short, SHORT_REPORT, 1, 0},
    {"convert_record", convert_record, NODE, 1, 0},
    {"convert_record, an edge", convert_record, EDGE, 1, 0},
    {"read_wkt", read_wkt, WKT, 19, 0},
    {"write_wkt", write_wkt, SHAPE, 16, 0},
};
enum { CALLS = sizeof calls / sizeof calls[0] };

/* So many ends in as many directions, areas and lines by turns. 7 divides neither 32 nor 600, so each of the numbers
 * below the count comes once. */
static size_t write_ends(uint8_t *to, unsigned count) {
    static const uint8_t labels[2][7] = {{MISONKANDI_AREA, 2, 1, 3, 0, 0, 0}, {MISONKANDI_LINE, 0, 0, 0, 1, 0, 0}};
    unsigned k;
    memset(to, 0, count * MISONKANDI_END_BYTES);
    for (k = 0; k < count; k++, to += MISONKANDI_END_BYTES) {
        unsigned dx = 1 + 7 * k % count, dy = count - 7 * k % count;
        to[2] = (uint8_t)(dx >> 8), to[3] = (uint8_t)dx;
        to[6] = (uint8_t)(dy >> 8), to[7] = (uint8_t)dy;
        memcpy(to + 8, labels[k % 2], 7);
    }
    return count * MISONKANDI_END_BYTES;
}

/* A saw of 64 corners: 63 along its teeth, each one high, and one far below; the same higher up, so that both together
 * have the most records; and 64 times the corner that takes the most bytes. */
enum { MOST_NUMBERS = 2 * MISONKANDI_MOST_CORNERS, MOST = 1000000000 };
static int32_t saw[MOST_NUMBERS], above[MOST_NUMBERS], longest[MOST_NUMBERS];

static void write_corners(void) {
    int32_t x;
    for (x = 0; x < 63; x++) saw[2 * x] = x, saw[2 * x + 1] = x % 2;
    saw[126] = 31, saw[127] = -10;
    for (x = 0; x < MOST_NUMBERS; x++) above[x] = saw[x] + 20 * (x % 2), longest[x] = -MOST;
}

static const int32_t *numbers_of(enum given given) { return given == SHAPE ? longest : saw; }

/* The longest text: a ring of those corners, the first one again at its end. */
static size_t write_longest(uint8_t to[MOST_GIVEN]) {
    static const char head[] = "POLYGON ((", pair[] = "-1000000000 -1000000000, ";
    size_t at = strlen(head);
    int k;
    memcpy(to, head, at);
    for (k = 0; k <= MISONKANDI_MOST_CORNERS; k++, at += strlen(pair))
        memcpy(to + at, pair, k < MISONKANDI_MOST_CORNERS ? strlen(pair) : strlen(pair) - 2);
    memcpy(to + at - 2, "))", 2); /* in place of the last comma and space */
    return at;
}

/* The bytes of one kind at their full length; an outline's and a shape's are numbers, and no bytes. */
static size_t write_given(enum given given, uint8_t to[MOST_GIVEN]) {
    static const uint8_t node[9] = {1, 231, 1, MISONKANDI_NODE, 2, 3, 1, 0, 32};
    static const uint8_t two[10] = {35, 48, 2, MISONKANDI_NODE, 2, 3, 1, 0, 2, 88}; /* 9,008 and 600 */
    static const uint8_t edge[11] = {0, 9, 1, MISONKANDI_EDGE, MISONKANDI_AREA, 2, 1, 3, 2, 3, 1};
    switch (given) {
    case TEXT: memcpy(to, "210F21012", 9); return 9;
    case NAME: memcpy(to, "contains_properly", 17); return 17;
    case REGION_NAME: memcpy(to, "none of these", 13); return 13;
    case ENDS: return write_ends(to, 32);
    case MANY: return write_ends(to, MOST_ENDS);
    case NODE: memcpy(to, node, 9); return 9 + write_ends(to + 9, 32);
    case TWO: memcpy(to, two, 10); return 10 + write_ends(to + 10, MOST_ENDS);
    case EDGE: memcpy(to, edge, 11); return 11;
    case FLOOR: write_given(NODE, to); memcpy(to + 489, edge, 11); return 500;
    case LONG_FLOOR: write_given(TWO, to); memcpy(to + 9010, edge, 11); return 9021;
    case OUTLINE: case OUTLINES: case SHAPE: return MOST_NUMBERS;
    case WKT: return write_longest(to);
    case REPORT: memcpy(to, "\0\12\1" "210F21012", 12); return 12;
    default: memcpy(to, "\0\4\2" "\3\223\233", 6); return 6; /* 210F21012 */
    }
}

/* ---- Every call against pages that can't be touched ---- */

static const uint8_t start[9] = MISONKANDI_START;

/* The room of a buffer: for the labels of all whole ends, for what is written of a shape, of a record or of two outlines
 * (39 bytes for each of their corners), else as many bytes as are given. */
static size_t room_of(int k, size_t count) {
    if (calls[k].given == SHAPE) return MISONKANDI_MOST_WKT_BYTES;
    if (calls[k].given == OUTLINES) return 39 * count;
    if (calls[k].call == star) return count / MISONKANDI_END_BYTES * MISONKANDI_LABEL_BYTES;
    return calls[k].call == convert_record ? count + 1 : count;
}

/* How many numbers a call is lent for its answer. */
static size_t numbers_answered(enum given given) { return given == WKT || given == OUTLINES ? 3 : 2; }

/* One call with its bytes cut to a count, all that it is lent at the end of a room or at its beginning. */
enum { ROOMS = 10 };
static uint32_t guarded_call(int k, const uint8_t *bytes, size_t count, int at_end, const pages room[ROOMS]) {
    static const uint8_t nothing[MOST_GIVEN];
    enum given given = calls[k].given;
    lendings l;
    l.cells = lent(room[0], start, 9, at_end);
    l.text = lent(room[1], nothing, given == ENDS || given == MANY ? 7 : 9, at_end);
    l.labels = lent(room[2], nothing, 224, at_end);
    if (given == OUTLINE || given == OUTLINES || given == SHAPE)
        l.xy = (const int32_t *)lent(room[3], numbers_of(given), count * sizeof saw[0], at_end);
    else l.bytes = lent(room[3], bytes, count, at_end);
    if (given == OUTLINES) l.other = (const int32_t *)lent(room[9], above, count * sizeof above[0], at_end);
    l.room = room_of(k, count);
    l.buffer = lent(room[4], nothing, l.room, at_end);
    l.corners = (int32_t *)lent(room[5], nothing, sizeof saw, at_end);
    l.answer = (uint64_t *)lent(room[6], nothing, numbers_answered(given) * sizeof *l.answer, at_end);
    l.state = (misonkandi_pieces *)(at_end ? room[7].start + ROOM - sizeof *l.state : room[7].start);
    misonkandi_start(l.state, start);
    l.ten = (uint32_t *)lent(room[8], nothing, MISONKANDI_TRACED_NUMBERS * sizeof *l.ten, at_end);
    l.count = count;
    return calls[k].call(&l);
}

static void all_counts(void) {
    pages room[ROOMS];
    uint8_t bytes[MOST_GIVEN];
    size_t count;
    int k;
    for (k = 0; k < ROOMS; k++) room[k] = guarded();
    for (k = 0; k < CALLS; k++) {
        size_t whole = write_given(calls[k].given, bytes);
        for (count = 0; count <= whole; count++) {
            uint32_t word = guarded_call(k, bytes, count, 1, room);
            same(calls[k].name, guarded_call(k, bytes, count, 0, room), word);
            if (count == whole) same(calls[k].name, MISONKANDI_REFUSED(word), 0);
        }
    }
    for (k = 0; k < ROOMS; k++) munmap(room[k].start - ROOM, 3 * ROOM);
}

/* NULL and no bytes: the answer, and the cells of a refused call as they were. */
static void nulls(void) {
    int k;
    for (k = 0; k < CALLS; k++) {
        uint8_t cells[9] = {9, 8, 7, 6, 5, 4, 255, 0, 3}, before[9], text[9], labels[224];
        int32_t corners[MOST_NUMBERS];
        uint64_t answer[3];
        uint32_t ten[MISONKANDI_TRACED_NUMBERS] = {0};
        misonkandi_pieces state;
        lendings l;
        uint32_t word;
        memcpy(before, cells, 9);
        misonkandi_start(&state, cells);
        l.cells = cells, l.text = text, l.labels = labels;
        l.corners = corners, l.answer = answer, l.state = &state, l.ten = ten;
        l.bytes = NULL, l.xy = NULL, l.other = NULL, l.buffer = NULL, l.count = 0, l.room = 0;
        word = calls[k].call(&l);
        same(calls[k].name, MISONKANDI_REFUSED(word) ? MISONKANDI_NUMBER(word) : 0, calls[k].none);
        if (calls[k].none != 0) same(calls[k].name, memcmp(cells, before, 9) == 0, 1);
    }
}

/* ---- Words ---- */

static void refused(uint32_t word, unsigned number, unsigned place) {
    SAME(MISONKANDI_REFUSED(word), 1);
    SAME(MISONKANDI_NUMBER(word), number);
    SAME(MISONKANDI_PLACE(word), place);
    SAME(word, 0x80000000u + 256 * number + place);
}

static const uint8_t *bytes_of(const char *text) { return (const uint8_t *)text; }

/* Each number of the header from a call that gives it. */
static void numbers(void) {
    static const char *const names[MISONKANDI_ROWS] = {
        "disjoint", "intersects",        "within",  "contains", "equal_topo", "coveredby",
        "covers",   "contains_properly", "touches", "crosses",  "overlaps",
    };
    static const struct { int byte; uint8_t to; unsigned number; } damages[] = {
        {0, 255, MISONKANDI_REFUSAL_SHORT},         {2, 3, MISONKANDI_REFUSAL_VERSION},
        {2, 0, MISONKANDI_REFUSAL_VERSION},         {2, 2, MISONKANDI_REFUSAL_ENDS}, /* 8,192 of them, by two bytes */
        {3, 3, MISONKANDI_REFUSAL_KIND},            {1, 0, MISONKANDI_REFUSAL_LENGTH},
        {8, 33, MISONKANDI_REFUSAL_ENDS},           {4, 0, MISONKANDI_REFUSAL_POSITION_CODE},
        {7, 4, MISONKANDI_REFUSAL_POSITION_CODE},   {17, 2, MISONKANDI_REFUSAL_LABEL_KIND},
        {17, 0, MISONKANDI_REFUSAL_LABEL_KIND},     {9, 128, MISONKANDI_REFUSAL_DIRECTION},
        {19, 0, MISONKANDI_REFUSAL_MISSING_LEFT},
    };
    uint8_t cells[9] = MISONKANDI_START, bytes[MOST_GIVEN];
    size_t k;
    for (k = 0; k < sizeof damages / sizeof damages[0]; k++) {
        size_t whole = write_given(NODE, bytes);
        bytes[damages[k].byte] = damages[k].to;
        refused(misonkandi_record(cells, bytes, whole), damages[k].number, 0);
    }
    refused(misonkandi_matches(cells, bytes_of("********"), 8), MISONKANDI_REFUSAL_NOT_NINE_BYTES, 0);
    refused(misonkandi_from_text(cells, bytes_of("FFFFFFFFf"), 9), MISONKANDI_REFUSAL_BAD_BYTE, 8);
    refused(misonkandi_matches(cells, bytes_of("T*X******"), 9), MISONKANDI_REFUSAL_BAD_BYTE, 2); /* T disagrees */
    refused(misonkandi_matches(cells, bytes_of("FFFFFFFFX"), 9), MISONKANDI_REFUSAL_BAD_BYTE, 8); /* each F agrees */
    refused(misonkandi_matches(cells, bytes_of("XTTTTTTTX"), 9), MISONKANDI_REFUSAL_BAD_BYTE, 0);
    refused(misonkandi_write_report(cells, bytes, 12, 1), MISONKANDI_REFUSAL_NO_ROOM, 0);
    refused(misonkandi_relate_places(0, NAN, 0, 0, 0, 0, 0, 0, 0, 0, cells), MISONKANDI_REFUSAL_NOT_A_PLACE, 0);
    refused(misonkandi_relate_places(2, 0, 0, 1, 1, 0, 0, 0, 0, 0, cells), MISONKANDI_REFUSAL_NOT_A_PLACE, 0);
    refused(misonkandi_set(cells, 4, 0, 0), MISONKANDI_REFUSAL_POSITION_CODE, 0);


    {
        uint32_t four[MISONKANDI_MASKS] = {7, 7, 7, 7}, rooms[3] = {0, 0x3FFFFu, 0xFFFFFFFFu};
        uint8_t answers[4] = {9, 9, 9, 9};
        refused(misonkandi_masks(bytes_of("********"), 8, four), MISONKANDI_REFUSAL_NOT_NINE_BYTES, 0);
        refused(misonkandi_masks(bytes_of("T*X******"), 9, four), MISONKANDI_REFUSAL_BAD_BYTE, 2);
        SAME(four[0] + four[3], 14);
        SAME(misonkandi_masks(bytes_of("T********"), 9, four), 0);
        SAME(four[0], 0x10000), SAME(four[1] | four[2] | four[3], 0);
        refused(misonkandi_masks_match_all(four, rooms, 3, answers, 2), MISONKANDI_REFUSAL_NO_ROOM, 0);
        refused(misonkandi_masks_verdict_all(four, rooms, 3, answers, 2), MISONKANDI_REFUSAL_NO_ROOM, 0);
        SAME(memcmp(answers, "\11\11\11\11", 4), 0);
        SAME(misonkandi_masks_match_all(four, rooms, 3, answers, 4), 0);
        SAME(memcmp(answers, "\0\1\1\11", 4), 0);
        SAME(misonkandi_masks_verdict_all(four, rooms, 3, answers, 3), 0);
        SAME(memcmp(answers, "\2\1\1\11", 4), 0);
        SAME(misonkandi_masks_count(four, rooms, 3), 2);
    }
    for (k = 0; k < MISONKANDI_ROWS; k++) SAME(misonkandi_predicate_named(bytes_of(names[k]), strlen(names[k])), k);
    SAME(misonkandi_predicate_named(bytes_of("touch"), 5), MISONKANDI_NO_SUCH_ROW);
    SAME(misonkandi_predicate_named(bytes_of("Touches"), 7), MISONKANDI_NO_SUCH_ROW);
    SAME(misonkandi_predicate(cells, MISONKANDI_ROWS), MISONKANDI_NO_SUCH_ROW);
    SAME(misonkandi_verdict(cells, MISONKANDI_ROWS), MISONKANDI_NO_SUCH_ROW);
    SAME(misonkandi_predicate(cells, 0xFFFFFFFFu), MISONKANDI_NO_SUCH_ROW);
    SAME(MISONKANDI_REFUSED(MISONKANDI_NO_SUCH_ROW), 1);
    SAME(MISONKANDI_NUMBER(MISONKANDI_NO_SUCH_ROW), 8388607);
}

/* ---- Stars, and records of both versions ---- */

enum { MOST_LABELS = MOST_ENDS * MISONKANDI_LABEL_BYTES };

/* The order in which a star is refused: with no room at all, which is looked for last. */
static void refused_stars(void) {
    static uint8_t bytes[(MOST_ENDS + 1) * MISONKANDI_END_BYTES];
    uint8_t label[7] = {9, 9, 9, 9, 9, 9, 9}, before[7];
    memcpy(before, label, 7);
    write_ends(bytes, MOST_ENDS + 1);
    refused(misonkandi_star(bytes, 14, 4, 0, NULL, 0), MISONKANDI_REFUSAL_LENGTH, 0);
    refused(misonkandi_star(bytes, sizeof bytes, 4, 0, NULL, 0), MISONKANDI_REFUSAL_ENDS, 0);
    refused(misonkandi_star(bytes, sizeof bytes - 1, 4, 0, NULL, 0), MISONKANDI_REFUSAL_LENGTH, 0);
    refused(misonkandi_bundle(bytes, sizeof bytes, label), MISONKANDI_REFUSAL_ENDS, 0);
    SAME(memcmp(label, before, 7), 0);
    SAME(misonkandi_bundle(bytes, sizeof bytes - 15, label), 0);
    bytes[10] = 0; /* the first end's left, where the others have one */
    refused(misonkandi_star(bytes, sizeof bytes - 15, 0, 0, NULL, 0), MISONKANDI_REFUSAL_MISSING_LEFT, 0);
    bytes[8] = 2;
    refused(misonkandi_star(bytes, sizeof bytes - 15, 0, 4, NULL, 0), MISONKANDI_REFUSAL_POSITION_CODE, 0);
    refused(misonkandi_star(bytes, sizeof bytes - 15, 0, 0, NULL, 0), MISONKANDI_REFUSAL_LABEL_KIND, 0);
    bytes[0] = 128;
    refused(misonkandi_star(bytes, 15, 0, 0, NULL, 0), MISONKANDI_REFUSAL_DIRECTION, 0);
}

/* The star of so many ends, each in a direction of its own: in all the room there is and in exactly as much as is needed
 * the labels are the same, and every byte behind them is as it was; with a byte less it is 12, and nothing written. */
static void one_star(unsigned ends) {
    static uint8_t bytes[MOST_ENDS * MISONKANDI_END_BYTES];
    static uint8_t all[MOST_LABELS + 9], exact[MOST_LABELS + 9], short_room[MOST_LABELS + 9], before[MOST_LABELS + 9];
    size_t count = write_ends(bytes, ends), need = ends * MISONKANDI_LABEL_BYTES, k;
    memset(before, 9, sizeof before);
    memset(all, 9, sizeof all), memset(exact, 9, sizeof exact), memset(short_room, 9, sizeof short_room);
    SAME(misonkandi_star(bytes, count, 1, 0, all, sizeof all), ends);
    SAME(misonkandi_star(bytes, count, 1, 0, exact, need), ends);
    SAME(memcmp(all, exact, sizeof all), 0);
    SAME(memcmp(all + need, before + need, sizeof all - need), 0);
    for (k = 0; k < need; k++) SAME(all[k] < 4, 1);
    if (need == 0) return;
    refused(misonkandi_star(bytes, count, 1, 0, short_room, need - 1), MISONKANDI_REFUSAL_NO_ROOM, 0);
    refused(misonkandi_star(bytes, count, 1, 0, NULL, 0), MISONKANDI_REFUSAL_NO_ROOM, 0);
    SAME(memcmp(short_room, before, sizeof before), 0);
}

/* Each byte of the longest record's head, and of its first end, for the number that it is refused with. */
static void damaged_two(void) {
    static const struct { int byte; uint8_t to; unsigned number; } damages[] = {
        {0, 255, MISONKANDI_REFUSAL_SHORT},       {2, 3, MISONKANDI_REFUSAL_VERSION},
        {2, 0, MISONKANDI_REFUSAL_VERSION},       {2, 1, MISONKANDI_REFUSAL_LENGTH}, /* of 2 ends, by one byte */
        {3, 3, MISONKANDI_REFUSAL_KIND},          {1, 0, MISONKANDI_REFUSAL_LENGTH},
        {9, 89, MISONKANDI_REFUSAL_ENDS},         {9, 87, MISONKANDI_REFUSAL_LENGTH},
        {8, 3, MISONKANDI_REFUSAL_ENDS},          {4, 0, MISONKANDI_REFUSAL_POSITION_CODE},
        {7, 4, MISONKANDI_REFUSAL_POSITION_CODE}, {18, 2, MISONKANDI_REFUSAL_LABEL_KIND},
        {18, 0, MISONKANDI_REFUSAL_LABEL_KIND},   {10, 128, MISONKANDI_REFUSAL_DIRECTION},
        {20, 0, MISONKANDI_REFUSAL_MISSING_LEFT},
    };
    static const uint8_t low[9] = {0, 7, 2, MISONKANDI_NODE, 1, 1, 0, 0, 0};
    uint8_t cells[9] = MISONKANDI_START, bytes[MOST_GIVEN];
    size_t k, whole = write_given(TWO, bytes);
    SAME(misonkandi_record(cells, bytes, whole), MISONKANDI_MOST_RECORD_BYTES);
    memcpy(cells, start, 9);
    for (k = 0; k < sizeof damages / sizeof damages[0]; k++) {
        uint8_t kept = bytes[damages[k].byte];
        bytes[damages[k].byte] = damages[k].to;
        refused(misonkandi_record(cells, bytes, whole), damages[k].number, 0);
        refused(misonkandi_convert_record(bytes, whole, NULL, 0, 0), damages[k].number, 0);
        bytes[damages[k].byte] = kept;
    }
    refused(misonkandi_record(cells, low, 9), MISONKANDI_REFUSAL_LENGTH, 0);
    refused(misonkandi_convert_record(bytes, whole, NULL, 0, 0), MISONKANDI_REFUSAL_ENDS, 0); /* above 32, no way back */
    SAME(memcmp(cells, start, 9), 0);
}

static void stars_and_versions(void) {
    static const unsigned counts[] = {0, 1, 2, 31, 32, 33, 64, 599, 600}; /* none of which 7 divides */
    size_t k;
    refused_stars();
    for (k = 0; k < sizeof counts / sizeof counts[0]; k++) one_star(counts[k]);
    damaged_two();
}

/* ---- Reports ---- */

/* Reading and converting refuse alike, converting before it looks for room. */
static void damaged_reports(void) {
    static const struct { enum given given; int byte; uint8_t to; unsigned number, place; } damages[] = {
        {REPORT, 0, 1, MISONKANDI_REFUSAL_SHORT, 0},         {SHORT_REPORT, 1, 5, MISONKANDI_REFUSAL_SHORT, 0},
        {REPORT, 1, 9, MISONKANDI_REFUSAL_LENGTH, 0},        {SHORT_REPORT, 1, 3, MISONKANDI_REFUSAL_LENGTH, 0},
        {REPORT, 1, 4, MISONKANDI_REFUSAL_LENGTH, 0},        {SHORT_REPORT, 2, 1, MISONKANDI_REFUSAL_LENGTH, 0},
        {REPORT, 2, 2, MISONKANDI_REFUSAL_LENGTH, 0},        {SHORT_REPORT, 2, 0, MISONKANDI_REFUSAL_VERSION, 0},
        {REPORT, 2, 3, MISONKANDI_REFUSAL_VERSION, 0},       {SHORT_REPORT, 3, 4, MISONKANDI_REFUSAL_TOP_BITS, 0},
        {REPORT, 11, 'T', MISONKANDI_REFUSAL_BAD_BYTE, 8},   {SHORT_REPORT, 3, 131, MISONKANDI_REFUSAL_TOP_BITS, 0},
    };
    size_t k;
    for (k = 0; k < sizeof damages / sizeof damages[0]; k++) {
        uint8_t cells[9] = MISONKANDI_START, bytes[MOST_GIVEN];
        size_t whole = write_given(damages[k].given, bytes);
        bytes[damages[k].byte] = damages[k].to;
        refused(misonkandi_read_report(cells, bytes, whole), damages[k].number, damages[k].place);
        SAME(memcmp(cells, start, 9), 0);
        refused(misonkandi_convert_report(bytes, whole, NULL, 0, 1), damages[k].number, damages[k].place);
    }
}

/* One form of a matrix's report, written from its cells and converted from the other form, into a buffer of so many
 * bytes from one offset: the same bytes and every other one as it was, or refusal 12 and no byte written. */
static void one_offset(enum given form, size_t room, size_t offset) {
    uint8_t cells[9], report[MOST_GIVEN], other[MOST_GIVEN];
    uint8_t meant[32], written[32], converted[32];
    size_t whole = write_given(form, report), read = write_given(form == REPORT ? SHORT_REPORT : REPORT, other);
    uint32_t word = 0x80000000u + 256 * MISONKANDI_REFUSAL_NO_ROOM;
    SAME(misonkandi_read_report(cells, other, read), read);
    memset(meant, 7, 32), memset(written, 7, 32), memset(converted, 7, 32);
    if (offset <= room && room - offset >= whole) {
        memcpy(meant + offset, report, whole);
        word = (uint32_t)whole;
    }
    if (form == REPORT) SAME(misonkandi_write_report(cells, written, room, offset), word);
    else SAME(misonkandi_write_short_report(cells, written, room, offset), word);
    SAME(misonkandi_convert_report(other, read, converted, room, offset), word);
    SAME(memcmp(written, meant, 32), 0);
    SAME(memcmp(converted, meant, 32), 0);
}

static void reports(void) {
    static const size_t large[] = {(size_t)-1, (size_t)-5, (size_t)-6, (size_t)-11, (size_t)-12, ((size_t)-1) / 2 + 1};
    size_t room, offset, k;
    damaged_reports();
    for (room = 0; room <= 26; room++) {
        for (offset = 0; offset <= room + 1; offset++)
            one_offset(REPORT, room, offset), one_offset(SHORT_REPORT, room, offset);
        for (k = 0; k < sizeof large / sizeof large[0]; k++)
            one_offset(REPORT, room, large[k]), one_offset(SHORT_REPORT, room, large[k]);
    }
}

/* ---- Records converted ---- */

enum { MOST_VERSION_TWO = 2 + 8 + 15 * 601 };

/* A node of so many lines, in 97 directions, by its bytes: the count in one byte or in two. */
static size_t write_node(uint8_t *to, unsigned version, unsigned count) {
    unsigned base = version == 1 ? 7 : 8, length = base + 15 * count, k;
    memset(to, 0, 2 + length);
    to[0] = (uint8_t)(length >> 8), to[1] = (uint8_t)length, to[2] = (uint8_t)version, to[3] = MISONKANDI_NODE;
    to[4] = MISONKANDI_INSIDE, to[5] = MISONKANDI_ON_BOUNDARY, to[7] = MISONKANDI_OUTSIDE;
    if (version == 2) to[8] = (uint8_t)(count >> 8);
    to[1 + base] = (uint8_t)count;
    for (k = 0; k < count; k++) {
        uint8_t *end = to + 2 + base + 15 * k;
        end[3] = (uint8_t)(1 + 31 * k % 97), end[7] = (uint8_t)(97 - 31 * k % 97);
        end[9] = (uint8_t)(1 + k % 3), end[12] = (uint8_t)(1 + k % 2);
    }
    return 2 + length;
}

/* One record converted into a buffer of just the room that it takes, into the end of a longer one, and where a byte is
 * missing; record and buffer stand against a page that nobody may touch. */
static void converted(const uint8_t *record, size_t count, const uint8_t *other, size_t written, const pages room[2]) {
    uint8_t *bytes = lent(room[0], record, count, 1), *buffer;
    SAME(misonkandi_convert_record(bytes, count, lent(room[1], other, 0, 1) - written, written, 0), written);
    buffer = room[1].start + ROOM - written;
    SAME(memcmp(buffer, other, written), 0);
    memset(buffer - 9, 7, written + 9);
    SAME(misonkandi_convert_record(bytes, count, buffer - 9, written + 9, 9), written);
    SAME(memcmp(buffer, other, written), 0);
    SAME(buffer[-1], 7);
    memset(buffer - 9, 7, written + 9);
    refused(misonkandi_convert_record(bytes, count, buffer, written, 1), MISONKANDI_REFUSAL_NO_ROOM, 0);
    refused(misonkandi_convert_record(bytes, count, buffer, written, (size_t)-1), MISONKANDI_REFUSAL_NO_ROOM, 0);
    SAME(buffer[0], 7), SAME(buffer[written - 1], 7);
}

/* There and back for every count that version 1 has; from 33 on the way back is 5, and 5 comes before 12. */
static void conversions(void) {
    static uint8_t one[MOST_VERSION_TWO], two[MOST_VERSION_TWO];
    uint8_t edge[MOST_GIVEN], other[11], kept[4] = {7, 7, 7, 7};
    pages room[2];
    unsigned n;
    room[0] = guarded(), room[1] = guarded();
    for (n = 0; n <= 601; n++) {
        uint8_t a[9] = MISONKANDI_START, b[9] = MISONKANDI_START;
        size_t first = n <= 33 ? write_node(one, 1, n) : 0, second = write_node(two, 2, n);
        if (n <= 32) {
            converted(one, first, two, second, room), converted(two, second, one, first, room);
            SAME(misonkandi_record(a, one, first), first), SAME(misonkandi_record(b, two, second), second);
            SAME(memcmp(a, b, 9), 0);
            continue;
        }
        if (n == 33) refused(misonkandi_convert_record(one, first, kept, 4, 0), MISONKANDI_REFUSAL_ENDS, 0);
        if (n <= 600) SAME(misonkandi_record(b, two, second), second);
        refused(misonkandi_convert_record(two, second, kept, 4, 5), MISONKANDI_REFUSAL_ENDS, 0);
    }
    SAME(kept[0], 7), SAME(kept[3], 7);
    write_given(EDGE, edge), memcpy(other, edge, 11), other[2] = 2;
    converted(edge, 11, other, 11, room), converted(other, 11, edge, 11, room);
    SAME(write_node(two, 2, 32), MISONKANDI_MOST_CONVERTED_BYTES);
    SAME(write_node(two, 2, 600), MISONKANDI_MOST_RECORD_BYTES);
    munmap(room[0].start - ROOM, 3 * ROOM), munmap(room[1].start - ROOM, 3 * ROOM);
}

/* ---- Regions ---- */

static const char *const region_names[] = {
    "disjoint", "meet", "overlap", "equal", "inside", "coveredBy", "contains", "covers", "none of these",
};

/* A name in a buffer of so many bytes from one offset, every other byte as it was; or 12 and no byte written. */
static void one_name(uint32_t which, size_t room, size_t offset) {
    uint8_t meant[32], written[32];
    size_t count = strlen(region_names[which]);
    uint32_t word = 0x80000000u + 256 * MISONKANDI_REFUSAL_NO_ROOM;
    memset(meant, 7, 32), memset(written, 7, 32);
    if (offset <= room && room - offset >= count) {
        memcpy(meant + offset, region_names[which], count);
        word = (uint32_t)count;
    }
    SAME(misonkandi_region_name(which, written, room, offset), word);
    SAME(memcmp(written, meant, 32), 0);
}

/* Names and numbers, a number above 8 before any room, and boxes that are none: the first, the second, both. */
static void regions(void) {
    static const size_t large[] = {(size_t)-1, (size_t)-13, ((size_t)-1) / 2 + 1};
    uint8_t bytes[9] = {255, 0, 0, 0, 4, 0, 0, 0, 3}, before[9];
    size_t room, offset, k;
    uint32_t which;
    SAME(misonkandi_region(bytes), MISONKANDI_REGION_EQUAL); /* numbers above 3 are not F */
    for (which = 0; which <= MISONKANDI_REGION_NONE_OF_THESE; which++) {
        const char *name = region_names[which];
        SAME(misonkandi_region_named(bytes_of(name), strlen(name)), which);
        SAME(misonkandi_region_named(bytes_of(name), strlen(name) - 1), MISONKANDI_NO_SUCH_ROW);
        SAME(strlen(name) <= MISONKANDI_MOST_REGION_NAME_BYTES, 1);
        for (room = 0; room <= 18; room++) {
            for (offset = 0; offset <= room + 1; offset++) one_name(which, room, offset);
            for (k = 0; k < sizeof large / sizeof large[0]; k++) one_name(which, room, large[k]);
        }
    }
    memcpy(before, bytes, 9);
    SAME(misonkandi_region_name(9, bytes, 9, 0), MISONKANDI_NO_SUCH_ROW);
    SAME(misonkandi_region_name(9, NULL, 0, 1), MISONKANDI_NO_SUCH_ROW);
    SAME(misonkandi_region_name(0xFFFFFFFFu, bytes, 9, 0), MISONKANDI_NO_SUCH_ROW);
    SAME(memcmp(bytes, before, 9), 0);
    refused(misonkandi_region_of_boxes(0, 0, 0, 1, 0, 0, 1, 1), MISONKANDI_REFUSAL_NOT_A_PLACE, 0);
    refused(misonkandi_region_of_boxes(0, 0, 1, 1, 0, 0, NAN, 1), MISONKANDI_REFUSAL_NOT_A_PLACE, 0);
    refused(misonkandi_region_of_boxes(0, 1, 1, 0, 0, 0, 1, INFINITY), MISONKANDI_REFUSAL_NOT_A_PLACE, 0);
    SAME(misonkandi_region_of_boxes(-0.0, 0, 4, 4, 0, -0.0, 4, 4), MISONKANDI_REGION_EQUAL);
}

/* ---- Floors ---- */

enum { LONG = 602, MOST_FLOOR = 500 + LONG + MOST_GIVEN };

/* What is said of a floor. */
typedef struct { uint32_t word; uint8_t cells[9]; uint64_t used, records; } told;

static void same_told(told a, told b) {
    SAME(a.word, b.word);
    SAME(memcmp(a.cells, b.cells, 9), 0);
    SAME(a.used, b.used);
    SAME(a.records, b.records);
}

static told one_by_one(const uint8_t *cells, const uint8_t *bytes, size_t count) {
    told t = {0, {0}, 0, 0};
    memcpy(t.cells, cells, 9);
    while (t.used < count) {
        t.word = misonkandi_record(t.cells, bytes + t.used, count - (size_t)t.used);
        if (MISONKANDI_REFUSED(t.word)) return t;
        t.used += t.word, t.records++;
    }
    t.word = 0;
    return t;
}

static told in_one_call(const uint8_t *cells, const uint8_t *bytes, size_t count) {
    told t;
    uint64_t answer[2] = {9, 9};
    memcpy(t.cells, cells, 9);
    t.word = misonkandi_floor(t.cells, bytes, count, answer);
    t.used = answer[0], t.records = answer[1];
    return t;
}

static told finished(const misonkandi_pieces *state) {
    told t;
    misonkandi_pieces before = *state;
    uint64_t answer[2] = {9, 9};
    memset(t.cells, 9, 9);
    t.word = misonkandi_finish(state, t.cells, answer);
    SAME(memcmp(state, &before, sizeof before), 0);
    t.used = answer[0], t.records = answer[1];
    return t;
}

/* The next piece, against a page that nobody may touch. The answer is that of one call to what has come, whole. */
static void pushed(misonkandi_pieces *state, pages room, const uint8_t *bytes, size_t from, size_t to) {
    told meant = in_one_call(start, bytes, to);
    uint32_t part = 0x80000000u + 256 * MISONKANDI_REFUSAL_SHORT;
    uint8_t *piece = lent(room, bytes + from, to - from, 1);
    SAME(misonkandi_push(state, from < to ? piece : NULL, to - from), meant.word == part ? 0 : meant.word);
    same_told(finished(state), meant);
}

static void in_two(misonkandi_pieces *state, pages room, const uint8_t *bytes, size_t cut, size_t count) {
    misonkandi_start(state, start);
    pushed(state, room, bytes, 0, cut);
    pushed(state, room, bytes, cut, count);
}

/* A traced matrix: which record made a cell, the last number, and that a refused record leaves all as it was. */
static void traced(void) {
    static const uint8_t node[9] = {0, 7, 1, MISONKANDI_NODE, 1, 1, 0, 0, 0};
    static const uint8_t edge[11] = {0, 9, 1, MISONKANDI_EDGE, MISONKANDI_AREA, 0, 1, 0, 0, 1, 0};
    static const uint8_t kind[4] = {0, 2, 1, 3};
    uint8_t cells[9] = MISONKANDI_START, before[9];
    uint32_t ten[MISONKANDI_TRACED_NUMBERS] = {0}, held[MISONKANDI_TRACED_NUMBERS];
    uint64_t answer[2] = {7, 7};
    SAME(MISONKANDI_TRACED_EXACT(ten), 1);
    SAME(misonkandi_traced_record(cells, ten, node, 9), 9);
    SAME(misonkandi_traced_floor(cells, ten, edge, 11, answer), 0);
    SAME(answer[0], 11);
    SAME(answer[1], 1);
    SAME(misonkandi_traced_record(cells, ten, node, 9), 9);
    SAME(ten[MISONKANDI_II], 2);
    SAME(ten[MISONKANDI_EE], 0);
    SAME(ten[9], 3);
    ten[MISONKANDI_IB] = 12, ten[MISONKANDI_BI] = 34;
    misonkandi_traced_transpose(cells, ten);
    SAME(ten[MISONKANDI_IB], 34);
    SAME(ten[MISONKANDI_BI], 12);
    SAME(ten[9], 3);
    ten[9] = 4294967286u;
    SAME(MISONKANDI_TRACED_EXACT(ten), 1);
    ten[9] = 4294967287u;
    SAME(MISONKANDI_TRACED_EXACT(ten), 0);
    ten[9] = 4294967295u, cells[4] = 200;
    memcpy(before, cells, 9);
    memcpy(held, ten, sizeof ten);
    refused(misonkandi_traced_record(cells, ten, node, 9), MISONKANDI_REFUSAL_NO_NUMBER_LEFT, 0);
    refused(misonkandi_traced_record(cells, ten, kind, 4), MISONKANDI_REFUSAL_KIND, 0);
    refused(misonkandi_traced_floor(cells, ten, node, 9, answer), MISONKANDI_REFUSAL_NO_NUMBER_LEFT, 0);
    SAME(answer[0], 0);
    SAME(memcmp(before, cells, 9), 0);
    SAME(memcmp(held, ten, sizeof ten), 0);
}

/* A floor cut into two pieces at every place, and into single bytes. */
static void every_cut(const uint8_t *bytes, size_t count, const pages room[2]) {
    misonkandi_pieces *state = (misonkandi_pieces *)lent(room[0], NULL, 0, 1) - 1;
    size_t cut;
    same_told(in_one_call(start, bytes, count), one_by_one(start, bytes, count));
    for (cut = 0; cut <= count; cut++) in_two(state, room[1], bytes, cut, count);
    misonkandi_start(state, start);
    for (cut = 0; cut < count; cut++) pushed(state, room[1], bytes, cut, cut + 1);
}

/* A floor with a damaged byte, cut where that byte stands and behind it. */
static void one_damage(uint8_t *bytes, size_t count, size_t place, uint8_t to, const pages room[2]) {
    misonkandi_pieces *state = (misonkandi_pieces *)lent(room[0], NULL, 0, 1) - 1;
    uint8_t kept = bytes[place];
    bytes[place] = to;
    same_told(in_one_call(start, bytes, count), one_by_one(start, bytes, count));
    in_two(state, room[1], bytes, place, count);
    in_two(state, room[1], bytes, place + 1, count);
    bytes[place] = kept;
}

/* The longest record, an edge, and a record that is longer than any accepted one: it is refused once it has come whole,
 * and what stands behind it isn't looked at. */
static size_t write_floor(uint8_t to[MOST_FLOOR]) {
    size_t at = write_given(FLOOR, to);
    memset(to + at, 0, LONG);
    memcpy(to + at, to, 9); /* a node's head, with a length of its own and an end more than there may be */
    to[at] = 2, to[at + 1] = 88, to[at + 8] = 33;
    return at + LONG + write_given(EDGE, to + at + LONG);
}

/* A node of so many lines in one direction, by its bytes, in version 2. */
static size_t write_lines(uint8_t *to, unsigned count) {
    static const uint8_t line[MISONKANDI_END_BYTES] = {0, 0, 0, 1, 0, 0, 0, 1, MISONKANDI_LINE, 1, 0, 0, 0, 0, 0};
    unsigned length = 8 + 15 * count, k;
    to[0] = (uint8_t)(length >> 8), to[1] = (uint8_t)length, to[2] = 2, to[3] = MISONKANDI_NODE;
    to[4] = to[5] = MISONKANDI_INSIDE, to[6] = to[7] = 0, to[8] = (uint8_t)(count >> 8), to[9] = (uint8_t)count;
    for (k = 0; k < count; k++) memcpy(to + 10 + 15 * k, line, sizeof line);
    return 2 + length;
}

/* The longest record, and one of an end more than there may be, which is longer than any accepted one: cut about where
 * each begins and ends, about as far behind as a state holds, and now and then between; and at two places. */
static void long_floor(const pages room[2]) {
    static uint8_t bytes[9010 + 9025 + 9010];
    misonkandi_pieces *state = (misonkandi_pieces *)lent(room[0], NULL, 0, 1) - 1;
    static const size_t places[] = {9010, 9010 + 9010, 9010 + 9025};
    size_t at = write_lines(bytes, 600), k, cut;
    SAME(at, 9010);
    at += write_lines(bytes + at, 601);
    at += write_lines(bytes + at, 600);
    refused(in_one_call(start, bytes, at).word, MISONKANDI_REFUSAL_ENDS, 0);
    SAME(in_one_call(start, bytes, at).used, 9010);
    same_told(in_one_call(start, bytes, at), one_by_one(start, bytes, at));
    for (cut = 0; cut < at; cut += 499) in_two(state, room[1], bytes, cut, at);
    for (k = 0; k < 3; k++) {
        for (cut = places[k] - 4; cut < places[k] + 12; cut++) {
            in_two(state, room[1], bytes, cut, at);
            misonkandi_start(state, start);
            pushed(state, room[1], bytes, 0, 9011), pushed(state, room[1], bytes, 9011, cut < 9011 ? 9011 : cut);
            pushed(state, room[1], bytes, cut < 9011 ? 9011 : cut, at);
        }
    }
    misonkandi_start(state, start);
    for (cut = 0; cut < at; cut += 5) pushed(state, room[1], bytes, cut, cut + 5 < at ? cut + 5 : at);
}

/* A state of any bytes: some answer, within what is lent. */
static void any_state(const uint8_t *bytes, size_t count, const pages room[2]) {
    static const uint64_t counts[] = {0, 1, 2, 488, 9009, 9010, 9011, 9012, 65536, 65537, 1ull << 63, UINT64_MAX};
    static const uint8_t stops[] = {0, 1, 2, 9, 11, 15, 22, 23, 128, 255};
    enum { COUNTS = sizeof counts / sizeof counts[0], STOPS = sizeof stops / sizeof stops[0] };
    int k, at;
    for (k = 0; k < 256 * COUNTS * STOPS; k++) {
        misonkandi_pieces *state = (misonkandi_pieces *)lent(room[0], NULL, 0, 1) - 1;
        uint32_t word;
        memset(state, k % 256, sizeof *state);
        for (at = 0; at < 8; at++) state->bytes[16 + at] = (uint8_t)(counts[k / 256 % COUNTS] >> 8 * at);
        state->bytes[24] = stops[k / 256 / COUNTS];
        word = misonkandi_push(state, lent(room[1], bytes, count, 1), count);
        SAME(word == 0 || MISONKANDI_REFUSED(word), 1);
        word = finished(state).word;
        SAME(word == 0 || MISONKANDI_REFUSED(word), 1);
    }
}

/* Where no record is accepted the cells stay as they came. */
static void larger_floors(void) {
    static const uint8_t cells[9] = {250, 4, 3, 2, 1, 0, 255, 128, 9}, refused_kind[] = {0, 2, 1, 3};
    misonkandi_pieces state, copy;
    told t = in_one_call(cells, NULL, 0);
    misonkandi_start(&state, cells);
    same_told(t, finished(&state));
    SAME(t.word, 0), SAME(t.used, 0), SAME(t.records, 0), SAME(memcmp(t.cells, cells, 9), 0);
    SAME(misonkandi_push(&state, refused_kind, 3), 0);
    copy = state; /* which goes on by itself */
    refused(misonkandi_push(&state, refused_kind + 3, 1), MISONKANDI_REFUSAL_KIND, 0);
    refused(misonkandi_push(&state, NULL, 0), MISONKANDI_REFUSAL_KIND, 0);
    same_told(in_one_call(cells, refused_kind, 4), finished(&state));
    same_told(in_one_call(cells, refused_kind, 3), finished(&copy));
    SAME(memcmp(finished(&state).cells, cells, 9), 0);
}

static void floors(void) {
    uint8_t bytes[MOST_FLOOR];
    pages room[2];
    size_t k, count = write_floor(bytes);
    room[0] = guarded(), room[1] = guarded();
    SAME(sizeof(misonkandi_pieces), MISONKANDI_PIECES_BYTES);
    SAME(in_one_call(start, bytes, 500).records, 2), SAME(in_one_call(start, bytes, 500).word, 0);
    refused(in_one_call(start, bytes, count).word, MISONKANDI_REFUSAL_ENDS, 0);
    every_cut(bytes, 500, room), every_cut(bytes, count, room);
    for (k = 0; k < count; k++) {
        one_damage(bytes, count, k, (uint8_t)(bytes[k] + 1), room);
        one_damage(bytes, count, k, bytes[k] ^ 128, room);
    }
    any_state(bytes, 40, room), any_state(bytes, count, room);
    long_floor(room);
    larger_floors();
    munmap(room[0].start - ROOM, 3 * ROOM), munmap(room[1].start - ROOM, 3 * ROOM);
}

/* ---- Outlines ---- */

enum { IN = MISONKANDI_INSIDE, ON = MISONKANDI_ON_BOUNDARY, OUT = MISONKANDI_OUTSIDE };

/* The numbers that an outline is refused for, and their order. */
static void refused_outlines(void) {
    static const int32_t far[] = {1000000001, -1000000001, INT32_MAX, INT32_MIN};
    static const int32_t square[8] = {0, 0, 4, 0, 4, 4, 0, 4};
    int32_t xy[MOST_NUMBERS + 2] = {0};
    size_t count, k, at;
    for (count = 0; count <= MOST_NUMBERS + 2; count++) /* all corners are equal, so 18 is due behind 16 and 17 */
        if (count % 2 != 0 || count < 6 || count > MOST_NUMBERS) {
            refused(misonkandi_point_in_outline(xy, count, 0, 0), MISONKANDI_REFUSAL_CORNER_COUNT, 0);
            refused(misonkandi_point_in_outline(xy, count, INT32_MIN, 0), MISONKANDI_REFUSAL_CORNER_COUNT, 0);
        } else {
            refused(misonkandi_point_in_outline(xy, count, 0, 0), MISONKANDI_REFUSAL_EQUAL_CORNERS, 0);
            refused(misonkandi_point_in_outline(xy, count, 0, INT32_MIN), MISONKANDI_REFUSAL_OUT_OF_RANGE, 0);
        }
    for (k = 0; k < sizeof far / sizeof far[0]; k++) {
        for (at = 0; at < 8; at++) {
            memcpy(xy, square, sizeof square);
            xy[at] = far[k];
            refused(misonkandi_point_in_outline(xy, 8, 1, 1), MISONKANDI_REFUSAL_OUT_OF_RANGE, 0);
        }
        refused(misonkandi_point_in_outline(square, 8, far[k], 1), MISONKANDI_REFUSAL_OUT_OF_RANGE, 0);
        refused(misonkandi_point_in_outline(square, 8, 1, far[k]), MISONKANDI_REFUSAL_OUT_OF_RANGE, 0);
    }
    for (at = 0; at < MISONKANDI_MOST_CORNERS; at++) { /* each corner equal to the next, the last to the first */
        memcpy(xy, saw, sizeof saw);
        memcpy(xy + 2 * at, saw + 2 * (at + 1) % MOST_NUMBERS, 2 * sizeof saw[0]);
        refused(misonkandi_point_in_outline(xy, MOST_NUMBERS, 1, 0), MISONKANDI_REFUSAL_EQUAL_CORNERS, 0);
    }
}

/* The same corners from another start, and all of them the other way round. */
static void turned(int32_t *to, const int32_t *xy, size_t corners, size_t from, int back) {
    size_t k;
    for (k = 0; k < corners; k++)
        memcpy(to + 2 * k, xy + 2 * ((from + (back ? corners - k : k)) % corners), 2 * sizeof *to);
}

/* A point's answer, whatever the start and the way round. */
static uint32_t located(const int32_t *xy, size_t numbers, int32_t x, int32_t y) {
    int32_t other[MOST_NUMBERS];
    uint32_t word = misonkandi_point_in_outline(xy, numbers, x, y);
    size_t from;
    for (from = 0; from < numbers / 2; from++) {
        turned(other, xy, numbers / 2, from, 0);
        SAME(misonkandi_point_in_outline(other, numbers, x, y), word);
        turned(other, xy, numbers / 2, from, 1);
        SAME(misonkandi_point_in_outline(other, numbers, x, y), word);
    }
    return word;
}

static void outlines(void) {
    static const int32_t notched[] = {0, 0, 10, 0, 10, 6, 7, 6, 5, 3, 3, 6, 0, 6}, tie[] = {0, 0, 4, 4, 4, 0, 0, 4};
    static const int32_t slanted[] = {-MOST, -MOST, MOST, -MOST, MOST, MOST - 1};
    int32_t x;
    refused_outlines();
    SAME(located(notched, 14, 2, 3), IN);  /* level with the corner (5, 3): three sides are crossed */
    SAME(located(notched, 14, 5, 5), OUT); /* in the notch */
    SAME(located(notched, 14, -1, 6), OUT);
    SAME(located(notched, 14, 5, 6), OUT); /* between two walls that are level with it */
    SAME(located(notched, 14, 8, 6), ON);
    SAME(located(notched, 14, 5, 3), ON);
    SAME(located(tie, 8, 1, 2), IN); /* where the outline crosses itself, by odd crossings */
    SAME(located(tie, 8, 2, 1), OUT);
    SAME(located(tie, 8, 2, 2), ON);
    SAME(located(tie, 8, MOST, -MOST), OUT);
    SAME(located(slanted, 6, 0, -1), IN); /* the long side passes half a unit below (0, 0) */
    SAME(located(slanted, 6, 0, 0), OUT);
    SAME(located(slanted, 6, MOST - 1, MOST - 2), IN); /* and 1/2,000,000,000 above this point */
    SAME(located(slanted, 6, MOST, MOST - 1), ON);
    for (x = 1; x < 62; x++) SAME(located(saw, MOST_NUMBERS, x, 0), x % 2 == 0 ? ON : IN);
}

/* ---- Two outlines ---- */

/* Numbers as they are lent, and how many. */
typedef struct { const int32_t *xy; size_t count; } numbers_lent;
#define LENT(xy) numbers_lent_at(xy, sizeof(xy) / sizeof(xy)[0])
static numbers_lent numbers_lent_at(const int32_t *xy, size_t count) {
    numbers_lent n;
    n.xy = xy, n.count = count;
    return n;
}

static uint32_t write_records(numbers_lent a, numbers_lent b, uint8_t *buffer, size_t room, size_t offset) {
    return misonkandi_commission(a.xy, a.count, b.xy, b.count, buffer, room, offset);
}

/* The records of two outlines: so many of so many bytes, none is refused, and they pour these cells. In just the room
 * that they take, against a page that nobody may touch, and in the middle of a longer buffer they are the same; with a
 * byte less it is 12 and no byte is written. */
static void records_of(numbers_lent a, numbers_lent b, const uint8_t meant[9], size_t records, size_t count) {
    static uint8_t buffer[MISONKANDI_MOST_COMMISSION_BYTES + 7], around[MISONKANDI_MOST_COMMISSION_BYTES + 7];
    pages room = guarded();
    uint8_t cells[9] = MISONKANDI_START, *exact = room.start + ROOM - count;
    uint64_t answer[2] = {9, 9};
    SAME(write_records(a, b, exact, count, 0), count);
    SAME(misonkandi_floor(cells, exact, count, answer), 0);
    SAME(answer[0], count), SAME(answer[1], records), SAME(memcmp(cells, meant, 9), 0);
    memset(buffer, 7, sizeof buffer), memset(around, 7, sizeof around);
    refused(write_records(a, b, buffer, count - 1, 0), MISONKANDI_REFUSAL_NO_ROOM, 0);
    refused(write_records(a, b, buffer, count + 2, 3), MISONKANDI_REFUSAL_NO_ROOM, 0);
    refused(write_records(a, b, buffer, count, count + 1), MISONKANDI_REFUSAL_NO_ROOM, 0);
    refused(write_records(a, b, buffer, sizeof buffer, (size_t)-1), MISONKANDI_REFUSAL_NO_ROOM, 0);
    refused(write_records(a, b, NULL, 0, 0), MISONKANDI_REFUSAL_NO_ROOM, 0);
    SAME(memcmp(buffer, around, sizeof buffer), 0);
    SAME(write_records(a, b, buffer, sizeof buffer, 3), count);
    memcpy(around + 3, exact, count);
    SAME(memcmp(buffer, around, sizeof buffer), 0);
    munmap(room.start - ROOM, 3 * ROOM);
}

/* The cells of two outlines, the answer as it was; from every start of a, both ways round, and with b exchanged for a
 * the transposed ones. `shared` corners are of both. */
static void related(numbers_lent a, numbers_lent b, const char *text, size_t shared) {
    int32_t other[MOST_NUMBERS] = {0};
    numbers_lent from = numbers_lent_at(other, a.count);
    size_t corners = (a.count + b.count) / 2, k;
    uint8_t meant[9], back[9], cells[9];
    uint64_t answer[3] = {9, 8, 7};
    SAME(misonkandi_from_text(meant, bytes_of(text), 9), 0);
    memcpy(back, meant, 9), misonkandi_transpose(back);
    for (k = 0; k < a.count; k++) {
        turned(other, a.xy, a.count / 2, k / 2, (int)(k % 2));
        memset(cells, 250, 9);
        SAME(misonkandi_relate_outlines(other, a.count, b.xy, b.count, cells, answer), 0);
        SAME(memcmp(cells, meant, 9), 0);
        SAME(misonkandi_relate_outlines(b.xy, b.count, other, a.count, cells, answer), 0);
        SAME(memcmp(cells, back, 9), 0);
        if (k < 3) records_of(from, b, meant, corners - shared, 9 * (corners - shared) + 30 * corners);
    }
    SAME(answer[0], 9), SAME(answer[1], 8), SAME(answer[2], 7);
}

/* Two that are refused: the word of both calls, which one and which pair, and the cells and the buffer as they were,
 * with room and without. */
static void unrelated(numbers_lent a, numbers_lent b, unsigned number, unsigned which, unsigned i, unsigned j) {
    static uint8_t buffer[MISONKANDI_MOST_COMMISSION_BYTES], before[MISONKANDI_MOST_COMMISSION_BYTES];
    uint8_t cells[9] = {9, 8, 7, 6, 5, 4, 255, 0, 3}, kept[9];
    uint64_t answer[3] = {9, 9, 9};
    memcpy(kept, cells, 9), memset(buffer, 7, sizeof buffer), memset(before, 7, sizeof before);
    refused(misonkandi_relate_outlines(a.xy, a.count, b.xy, b.count, cells, answer), number, 0);
    SAME(answer[0], which), SAME(answer[1], i), SAME(answer[2], j);
    SAME(memcmp(cells, kept, 9), 0);
    refused(write_records(a, b, buffer, sizeof buffer, 0), number, 0);
    refused(write_records(a, b, buffer, 0, 1), number, 0);
    refused(write_records(a, b, NULL, 0, 0), number, 0);
    SAME(memcmp(buffer, before, sizeof buffer), 0);
}

static const int32_t square[] = {0, 0, 4, 0, 4, 4, 0, 4}, bow_tie[] = {0, 0, 4, 4, 4, 0, 0, 4};

/* 16, 17 and 18: of a before anything of b, of b before any pair of sides. */
static void no_outlines(void) {
    static const int32_t far[] = {0, 0, 4, 0, 0, MOST + 1}, low[] = {0, 0, 4, 0, 0, INT32_MIN};
    static const int32_t equal[] = {0, 0, 4, 0, 4, 0}, closed[] = {0, 0, 4, 0, 0, 4, 0, 0};
    static int32_t many[MOST_NUMBERS + 2];
    struct { numbers_lent xy; unsigned number; } bad[9];
    size_t k, j;
    bad[0].xy = numbers_lent_at(NULL, 0), bad[0].number = MISONKANDI_REFUSAL_CORNER_COUNT;
    bad[1].xy = numbers_lent_at(square, 4), bad[1].number = MISONKANDI_REFUSAL_CORNER_COUNT;
    bad[2].xy = numbers_lent_at(square, 5), bad[2].number = MISONKANDI_REFUSAL_CORNER_COUNT;
    bad[3].xy = numbers_lent_at(square, 7), bad[3].number = MISONKANDI_REFUSAL_CORNER_COUNT;
    bad[4].xy = LENT(many), bad[4].number = MISONKANDI_REFUSAL_CORNER_COUNT; /* all equal, so 18 is due too */
    bad[5].xy = LENT(far), bad[5].number = MISONKANDI_REFUSAL_OUT_OF_RANGE;
    bad[6].xy = LENT(low), bad[6].number = MISONKANDI_REFUSAL_OUT_OF_RANGE;
    bad[7].xy = LENT(equal), bad[7].number = MISONKANDI_REFUSAL_EQUAL_CORNERS;
    bad[8].xy = LENT(closed), bad[8].number = MISONKANDI_REFUSAL_EQUAL_CORNERS;
    for (k = 0; k < 9; k++) {
        for (j = 0; j < 9; j++) unrelated(bad[k].xy, bad[j].xy, bad[k].number, 0, 0, 0);
        unrelated(bad[k].xy, LENT(bow_tie), bad[k].number, 0, 0, 0);
        unrelated(LENT(square), bad[k].xy, bad[k].number, 1, 0, 0);
        unrelated(LENT(bow_tie), bad[k].xy, bad[k].number, 1, 0, 0);
    }
}

/* 20: a pair of sides in one outline; in a before in b, and in either before a pair across. */
static void bad_within(void) {
    static const int32_t back[] = {0, 0, 4, 0, 2, 0, 2, 3}, over[] = {0, 0, 4, 0, 4, 4, 0, 4, 8, 0};
    static const int32_t middle[] = {0, 0, 6, 0, 6, 4, 3, 0, 0, 4}, twice[] = {0, 0, 3, 0, 1, 2, 3, 4, 1, 2};
    struct { numbers_lent xy; unsigned i, j; } bad[5];
    int k;
    bad[0].xy = LENT(bow_tie), bad[0].i = 0, bad[0].j = 2; /* they cross */
    bad[1].xy = LENT(back), bad[1].i = 0, bad[1].j = 1;    /* neighbours, there and back */
    bad[2].xy = LENT(over), bad[2].i = 0, bad[2].j = 4;    /* neighbours, the last side over the first */
    bad[3].xy = LENT(middle), bad[3].i = 0, bad[3].j = 2;  /* a corner in a side's middle */
    bad[4].xy = LENT(twice), bad[4].i = 1, bad[4].j = 3;   /* a corner twice: they share an end and are no neighbours */
    for (k = 0; k < 5; k++) {
        unrelated(bad[k].xy, LENT(square), MISONKANDI_REFUSAL_SIDES, 0, bad[k].i, bad[k].j);
        unrelated(LENT(square), bad[k].xy, MISONKANDI_REFUSAL_SIDES, 1, bad[k].i, bad[k].j);
        unrelated(bad[k].xy, LENT(bow_tie), MISONKANDI_REFUSAL_SIDES, 0, bad[k].i, bad[k].j);
    }
}

/* 21: a side of a and a side of b. */
static void bad_across(void) {
    static const int32_t crossing[] = {2, 2, 6, 2, 6, 3, 2, 3}, touching[] = {4, 2, 8, 2, 8, 5};
    static const int32_t earlier[] = {6, 6, 2, 6, 3, -1, 6, -1}, within[] = {4, 1, 4, 3, 6, 2};
    static const int32_t halved[] = {0, 0, 2, 0, 4, 0, 2, 3}, beyond[] = {4, -3, 4, 7, 8, 0};
    unrelated(LENT(square), LENT(crossing), MISONKANDI_REFUSAL_SIDES_ACROSS, 2, 1, 0);
    unrelated(LENT(crossing), LENT(square), MISONKANDI_REFUSAL_SIDES_ACROSS, 2, 0, 1);
    unrelated(LENT(square), LENT(touching), MISONKANDI_REFUSAL_SIDES_ACROSS, 2, 1, 0); /* in a side's middle */
    unrelated(LENT(square), LENT(earlier), MISONKANDI_REFUSAL_SIDES_ACROSS, 2, 0, 1);  /* by i first */
    unrelated(LENT(square), LENT(within), MISONKANDI_REFUSAL_SIDES_ACROSS, 2, 1, 0);
    unrelated(LENT(square), LENT(halved), MISONKANDI_REFUSAL_SIDES_ACROSS, 2, 0, 0); /* a's side is two of b's */
    unrelated(LENT(square), LENT(beyond), MISONKANDI_REFUSAL_SIDES_ACROSS, 2, 0, 0);
}

static void two_outlines(void) {
    static const int32_t within[] = {1, 1, 3, 1, 2, 3}, apart[] = {5, 0, 9, 0, 9, 4}, corner[] = {4, 4, 9, 4, 9, 7};
    static const int32_t wall[] = {4, 0, 9, 0, 9, 4, 4, 4}, cut[] = {0, 0, 4, 0, 4, 2, 4, 4, 2, 4, 0, 4};
    static const int32_t across[] = {2, 2, 4, 2, 6, 2, 6, 6, 2, 6, 2, 4}, small[] = {0, 0, 2, 0, 2, 2, 0, 2};
    static const int32_t covering[] = {0, 0, 2, 0, 4, 0, 4, 4, 0, 4, 0, 2};
    static const int32_t whole[] = {-MOST, -MOST, MOST, -MOST, MOST, MOST, -MOST, MOST};
    static const int32_t slanted[] = {-MOST, -MOST, MOST, -MOST, MOST, MOST - 1};
    static const int32_t near[] = {MOST - 1, MOST - 2, MOST - 2, 1 - MOST, MOST - 1, 1 - MOST};
    no_outlines();
    bad_within();
    bad_across();
    related(LENT(square), LENT(square), "2FFF1FFF2", 4);
    related(LENT(square), LENT(within), "212FF1FF2", 0);
    related(LENT(square), LENT(apart), "FF2FF1212", 0);
    related(LENT(square), LENT(corner), "FF2F01212", 1);
    related(LENT(square), LENT(wall), "FF2F11212", 2);
    related(LENT(cut), LENT(across), "212101212", 2);
    related(LENT(covering), LENT(small), "212F11FF2", 3);
    related(LENT(whole), LENT(whole), "2FFF1FFF2", 4); /* directions of 2,000,000,000 */
    related(LENT(slanted), LENT(near), "212FF1FF2", 0); /* 1/2,000,000,000 from the long side */
    related(LENT(saw), LENT(saw), "2FFF1FFF2", 64);
    related(LENT(saw), LENT(above), "FF2FF1212", 0); /* the most bytes, 4,992 */
}

/* ---- Shapes as text ---- */

/* A text that is refused: its word, and what it was lent as it was but for the whole place. */
static void refused_text(const char *text, size_t count, unsigned number, size_t place) {
    int32_t xy[MOST_NUMBERS], before[MOST_NUMBERS];
    uint64_t answer[3] = {9, 9, 9};
    memset(xy, 9, sizeof xy), memset(before, 9, sizeof before);
    refused(misonkandi_read_wkt(bytes_of(text), count, xy, answer), number, place < 255 ? (unsigned)place : 255);
    SAME(memcmp(xy, before, sizeof xy), 0);
    SAME(answer[0], 9), SAME(answer[1], 9), SAME(answer[2], place);
}

/* The examples of request R-9, the order of the numbers, and places beyond what a word has room for. */
static void refused_texts(void) {
    static const struct { const char *text; unsigned number; size_t place; } texts[] = {
        {"", MISONKANDI_REFUSAL_BAD_TEXT, 0},
        {"LINESTRING()", MISONKANDI_REFUSAL_BAD_TEXT, 11},
        {"POINT(1 2,3 4)", MISONKANDI_REFUSAL_BAD_TEXT, 9},
        {" POINT(1 2)", MISONKANDI_REFUSAL_BAD_TEXT, 0},
        {"POINT(1 2) ", MISONKANDI_REFUSAL_BAD_TEXT, 10},
        {"POINT(1 2", MISONKANDI_REFUSAL_BAD_TEXT, 9},
        {"POINT(- 1 2)", MISONKANDI_REFUSAL_BAD_TEXT, 7},
        {"POINT EMPTY", MISONKANDI_REFUSAL_BAD_TEXT, 6},
        {"POLYGON((0 0,4 0,4 4,0 0),(1 1,2 1,2 2,1 1))", MISONKANDI_REFUSAL_BAD_TEXT, 25},
        {"LINESTRING(2000000000 0", MISONKANDI_REFUSAL_BAD_TEXT, 23},
        {"LINESTRING(1 2)", MISONKANDI_REFUSAL_CORNER_COUNT, 0},
        {"POLYGON((2000000000 0,4 0,4 4))", MISONKANDI_REFUSAL_CORNER_COUNT, 0},
        {"POINT(0 -1000000001)", MISONKANDI_REFUSAL_OUT_OF_RANGE, 0},
        {"POINT(18446744073709551617 0)", MISONKANDI_REFUSAL_OUT_OF_RANGE, 0},
        {"POLYGON((0 0,4 0,2000000000 4,0 1))", MISONKANDI_REFUSAL_OUT_OF_RANGE, 0},
        {"POLYGON((0 0,4 0,4 4,0 1))", MISONKANDI_REFUSAL_RING_OPEN, 0},
    };
    uint8_t bytes[MOST_GIVEN];
    size_t k, whole = write_given(WKT, bytes);
    for (k = 0; k < sizeof texts / sizeof texts[0]; k++)
        refused_text(texts[k].text, strlen(texts[k].text), texts[k].number, texts[k].place);
    for (k = 0; k < whole; k++) { /* cut off anywhere, and with a byte that no text has at its end */
        uint8_t kept = bytes[k];
        refused_text((const char *)bytes, k, MISONKANDI_REFUSAL_BAD_TEXT, k);
        bytes[k] = '#';
        refused_text((const char *)bytes, whole, MISONKANDI_REFUSAL_BAD_TEXT, k);
        bytes[k] = kept;
    }
}

/* A text is read as these corners, every number after them as it was, and they are written as another text, every byte
 * around it as it was; with a byte of room too few, nothing is. */
static void read_and_written(const char *text, const char *other, unsigned kind, size_t corners, const int32_t *meant) {
    int32_t xy[MOST_NUMBERS], rest[MOST_NUMBERS];
    uint64_t answer[3] = {9, 9, 9};
    uint8_t buffer[MOST_GIVEN + 2], around[MOST_GIVEN + 2];
    size_t count = strlen(other);
    memset(xy, 9, sizeof xy), memset(rest, 9, sizeof rest);
    memcpy(rest, meant, 2 * corners * sizeof *meant);
    SAME(misonkandi_read_wkt(bytes_of(text), strlen(text), xy, answer), 0);
    SAME(memcmp(xy, rest, sizeof xy), 0);
    SAME(answer[0], kind), SAME(answer[1], corners), SAME(answer[2], 0);
    memset(buffer, 7, sizeof buffer), memset(around, 7, sizeof around);
    refused(misonkandi_write_wkt(kind, xy, 2 * corners, buffer, count, 1), MISONKANDI_REFUSAL_NO_ROOM, 0);
    refused(misonkandi_write_wkt(kind, xy, 2 * corners, buffer, count, (size_t)-1), MISONKANDI_REFUSAL_NO_ROOM, 0);
    SAME(memcmp(buffer, around, sizeof buffer), 0);
    memcpy(around + 1, other, count);
    SAME(misonkandi_write_wkt(kind, xy, 2 * corners, buffer, count + 1, 1), count);
    SAME(memcmp(buffer, around, sizeof buffer), 0);
}

/* What is refused where a shape is written, and in which order: the buffer has no room. */
static void refused_shapes(void) {
    static const unsigned most[] = {0, 1, 64, 64, 0}, least[] = {1, 1, 2, 3, 1};
    static const int32_t far[] = {MOST + 1, -MOST - 1, INT32_MAX, INT32_MIN};
    int32_t xy[MOST_NUMBERS + 4] = {0};
    uint32_t kind;
    size_t count, k;
    for (kind = 0; kind <= 4; kind++)
        for (count = 0; count <= MOST_NUMBERS + 4; count++) {
            int good = count % 2 == 0 && count / 2 >= least[kind] && count / 2 <= most[kind];
            unsigned number = good ? MISONKANDI_REFUSAL_NO_ROOM : MISONKANDI_REFUSAL_CORNER_COUNT;
            refused(misonkandi_write_wkt(kind, xy, count, NULL, 0, 0), number, 0);
            for (k = 0; k < 4 && count > 0; k++) {
                number = good ? MISONKANDI_REFUSAL_OUT_OF_RANGE : MISONKANDI_REFUSAL_CORNER_COUNT;
                xy[count - 1] = far[k];
                refused(misonkandi_write_wkt(kind, xy, count, NULL, 0, 0), number, 0);
                xy[count - 1] = 0;
            }
        }
    refused(misonkandi_write_wkt(0x80000001u, xy, 2, NULL, 0, 0), MISONKANDI_REFUSAL_CORNER_COUNT, 0);
}

static void shapes(void) {
    static const int32_t pair[] = {7, -12, 0, 5}, ring[] = {0, 0, 10, 0, 10, 6, 0, 6};
    uint8_t bytes[MOST_GIVEN + 1] = {0};
    refused_texts();
    refused_shapes();
    read_and_written("pOiNt  (  007   -12  )", "POINT (7 -12)", MISONKANDI_SHAPE_POINT, 1, pair);
    read_and_written("LineString(7 -12,-0 5)", "LINESTRING (7 -12, 0 5)", MISONKANDI_SHAPE_LINESTRING, 2, pair);
    read_and_written("polygon ( (0 0,10 0 , 10 6,-0 06,00 -0) )", "POLYGON ((0 0, 10 0, 10 6, 0 6, 0 0))",
                     MISONKANDI_SHAPE_POLYGON, 4, ring);
    SAME(write_longest(bytes), MISONKANDI_MOST_WKT_BYTES);
    read_and_written((const char *)bytes, (const char *)bytes, MISONKANDI_SHAPE_POLYGON, 64, longest);
}

/* ---- Larger numbers ---- */

/* All that a call is lent, at its full length. */
static lendings all_lent(int k) {
    static uint8_t cells[9], text[9], labels[224], bytes[MOST_GIVEN], buffer[MOST_GIVEN];
    static int32_t corners[MOST_NUMBERS];
    static uint64_t answer[3];
    static misonkandi_pieces state;
    static uint32_t ten[MISONKANDI_TRACED_NUMBERS];
    lendings l;
    memset(&state, 0, sizeof state);
    l.state = &state, l.ten = ten;
    l.cells = cells, l.text = text, l.labels = labels, l.buffer = buffer, l.bytes = bytes;
    l.xy = numbers_of(calls[k].given), l.other = above, l.corners = corners, l.answer = answer;
    l.count = write_given(calls[k].given, bytes), l.room = sizeof buffer;
    memcpy(cells, start, 9);
    return l;
}

/* Cells above 3: read as 2, written as 3 by every accepted call that writes cells, and left by a refused one. */
static void larger(void) {
    int k;
    for (k = 0; k < CALLS; k++) {
        int at;
        lendings l = all_lent(k);
        memset(l.cells, 250, 9);
        calls[k].call(&l);
        for (at = 0; at < 9; at++) same(calls[k].name, l.cells[at] <= 3, (unsigned long)calls[k].writes);
    }
    {
        uint8_t cells[9] = MISONKANDI_START;
        misonkandi_set(cells, MISONKANDI_ON_BOUNDARY, MISONKANDI_OUTSIDE, 4);
        SAME(cells[MISONKANDI_BE], MISONKANDI_DIMENSION_2);
    }
    {
        uint8_t cells[9] = {250, 4, 3, 2, 1, 0, 255, 128, 3}, buffer[MISONKANDI_SHORT_REPORT_BYTES];
        SAME(misonkandi_write_short_report(cells, buffer, MISONKANDI_SHORT_REPORT_BYTES, 0), 6);
        SAME(memcmp(buffer, "\0\4\2" "\3\371\77", 6), 0);
    }
}

/* ---- The stack ---- */

enum { PAINT = 0xA5 };
typedef struct { int k; lendings l; uint8_t *from; } painted_call;

/* The frames of what is called lie below this one's. */
static void *run(void *given) {
    painted_call *p = given;
    p->from = __builtin_frame_address(0);
    calls[p->k].call(&p->l);
    return NULL;
}

/* How many bytes below its caller's frame a call has written to, on a thread with a painted stack. */
static size_t depth(int k, const lendings *l) {
    pages room = guarded();
    painted_call p;
    pthread_attr_t how;
    pthread_t thread;
    size_t clean = 0;
    p.k = k, p.l = *l, p.from = room.start;
    memset(room.start, PAINT, ROOM);
    pthread_attr_init(&how);
    if (pthread_attr_setstack(&how, room.start, ROOM) != 0 || pthread_create(&thread, &how, run, &p) != 0) {
        puts("no thread");
        exit(2);
    }
    pthread_join(thread, NULL);
    while (room.start[clean] == PAINT) clean++;
    munmap(room.start - ROOM, 3 * ROOM);
    return (size_t)(p.from - room.start) - clean;
}

static void stack(void) {
    size_t deepest = 0, here;
    int k, which = 0;
    lendings l = all_lent(0);
    depth(0, &l); /* the first thread of a program has more to do than the next */
    for (k = 0; k < CALLS; k++) {
        l = all_lent(k);
        here = depth(k, &l);
        printf("%-16s %4lu bytes of stack\n", calls[k].name, (unsigned long)here);
        if (here > deepest) deepest = here, which = k;
        if (calls[k].given < ENDS || calls[k].given >= REPORT) same(calls[k].name, here < 400, 1);
    }
    printf("deepest: %s\n", calls[which].name);
    SAME(deepest < MISONKANDI_STACK_BYTES, 1);
}

int main(void) {
    write_corners();
    all_counts();
    nulls();
    numbers();
    stars_and_versions();
    reports();
    conversions();
    regions();
    floors();
    traced();
    outlines();
    two_outlines();
    shapes();
    larger();
    stack();
    puts(wrong ? "the header is wrong" : "the library does what the header says at its edges");
    return wrong;
}
