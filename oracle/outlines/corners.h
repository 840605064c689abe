/* Lists of corners, and how random ones are drawn: what the programs on outlines and those on WKT share. */
#ifndef CORNERS_H
#define CORNERS_H

#include <stddef.h>
#include <stdint.h>

/* Request R-8's numbers. */
enum { LEAST = 3, MOST = 64, LIMIT = 1000000000 };

/* A refusal as the C interface has it: 2^31 plus 256 times its number. */
#define REFUSED(number) (0x80000000u + 256u * (number))

/* Room for a list with too many corners. */
enum { ROOM = 66 };

typedef struct {
    int32_t x, y;
} spot;

/* Two numbers a corner; of an odd count the last corner has only its x. */
typedef struct {
    size_t numbers;
    spot corners[ROOM];
} outline;

/* spread.c: how many corners, and where they may lie. */
typedef struct {
    int32_t size, step, shift_x, shift_y;
    int at_limits;
} spread;
spread draw_spread(void);
size_t draw_count(void);
spot draw_spot(const spread *s);
void draw_corners(outline *o, size_t corners, const spread *s);
void shift(outline *o, const spread *s);

#endif
