/* Answers tasks that come as records on standard input, for a processor that the library isn't built for: x86-64 Linux
 * code without a C library, with the archive linked in. library.c is the other side. */
#include "../far/bare.h"
#include "far_outlines.h"
#include "misonkandi.h"
#include "outlines.h"

static int32_t numbers[2 * ROOM], points[2 * POINTS];
static uint32_t words[POINTS];

static void answer(size_t count, size_t asked)
{
    if (count > 2 * ROOM || asked > POINTS)
        end(5);
    if ((count && !read_all((uint8_t *)numbers, 4 * count)) || (asked && !read_all((uint8_t *)points, 8 * asked)))
        end(5);
    for (size_t k = 0; k < asked; k++)
        words[k] = misonkandi_point_in_outline(count ? numbers : NULL, count, points[2 * k], points[2 * k + 1]);
    write_all((const uint8_t *)words, 4 * asked);
}

static void serve(void)
{
    uint32_t head[2];
    while (read_all((uint8_t *)head, SENT_HEAD))
        answer(head[0], head[1]);
    end(0);
}

/* The system enters here with the stack at a multiple of 16; a call then leaves it as compiled code expects it. */
__asm__(".globl _start\n_start:\n    xor %ebp, %ebp\n    call serve_from_start\n");
void serve_from_start(void)
{
    serve();
}
