/* Texts and shapes of request R-9, what was said of them, and the parts that the programs on WKT share. */
#ifndef WKT_H
#define WKT_H

#include "../outlines/corners.h"

enum { POINT = 1, LINE = 2, POLYGON = 3 };

/* The numbers of request R-9's refusals. */
enum { NO_ROOM = 12, CORNER_COUNT = 16, OUT_OF_RANGE = 17, BAD_TEXT = 19, RING_OPEN = 22 };

/* Room for any text that is drawn, and for what is written: more than the longest has. */
enum { TEXT = 8192, BUFFER = 1700 };

/* What lent bytes hold before a call, and how many of xy's numbers are guards behind those that the call may write. */
enum { HELD = 0x5a, NUMBERS = 2 * MOST, GUARDS = 8 };

typedef struct {
    size_t count;
    uint8_t bytes[TEXT];
} text;

/* A ring's repeat isn't held. */
typedef struct {
    uint32_t kind;
    outline list;
} shape;

/* What a caller has after reading, and after writing. */
typedef struct {
    uint32_t word;
    uint64_t answer[3];
    int32_t xy[NUMBERS + GUARDS];
} reading;

typedef struct {
    uint32_t word;
    uint8_t buffer[BUFFER];
} writing;

/* A text to be read, or a shape to be written into so much room from an offset on, and what the library did. */
typedef struct {
    int writes;
    text given;
    shape put;
    size_t room, offset;
    reading read;
    writing wrote;
} task;

/* What the rule waits for at a place of a text. */
typedef enum { KEYWORD, OPENING, NUMBER, NUMBER_END, PAIR_END, RING_END, BEHIND } state;

/* rule_read.c, rule_write.c: request R-9 a second time. Reading also says what it waited for where it ended. */
state read_by_rule(const uint8_t *bytes, size_t count, reading *r);
void write_by_rule(const shape *s, size_t room, size_t offset, writing *w);
int same_reading(const reading *a, const reading *b);
int same_writing(const writing *a, const writing *b);
shape shape_read(const reading *r);

/* spell.c: a text of these pairs, its case, spaces and zeros drawn. The number with the index `far` gets more digits,
 * if there is one. */
enum { NONE_FAR = -1 };
void spell(uint32_t kind, const outline *pairs, int far, text *t);

/* shape.c: a shape that can be written, of any kind; a list of corners with a number at the limits or beyond them; the
 * pairs of a shape's text, a ring's with the repeat; a text. */
void draw_shape(shape *s);
void set_far(outline *pairs);
outline pairs_of(const shape *s);
void draw_text(text *t);

/* edit.c: changes of a text. */
void put_in(text *t, size_t at, const char *bytes, size_t count);
void take_out(text *t, size_t at, size_t count);

/* good.c, edges.c, damaged.c, near.c, foreign.c, writes.c: which tasks there are. Each hands its tasks to `give`. */
void good_tasks(long count, uint64_t seed);
void edge_tasks(long count, uint64_t seed);
void damaged_tasks(long count, uint64_t seed);
void near_tasks(void);
void foreign_tasks(long count, uint64_t seed);
void write_tasks(long count, uint64_t seed);
void give_text(const text *t);
void give_shape(const shape *s, size_t room, size_t offset);

/* ../outlines/batch.c: the library is asked about many tasks at once; then each is judged. */
void start_batches(void (*judge)(const task *t));
void give(const task *t);
void end_batch(void);

/* library.c: the library's side; the archive itself, under an emulator where it is for another processor. */
void all_by_library(task *tasks, long count);

#endif
