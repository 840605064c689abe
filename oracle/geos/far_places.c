/* Answers pairs of places that come as records on standard input, for a processor that the library isn't built for:
 * x86-64 Linux code without a C library, with the archive linked in. library.c is the other side. */
#include "../far/bare.h"
#include "far_places.h"
#include "misonkandi.h"

enum { BATCH = 1024, HELD = 9 };

static uint8_t sent[SENT];
static uint8_t returned[BATCH * RETURNED];

static void answer(uint8_t *to)
{
    uint32_t kinds[2], word, boxes, region;
    double a[4], b[4];
    memcpy(&kinds[0], sent, 4);
    memcpy(a, sent + 4, sizeof a);
    memcpy(&kinds[1], sent + PLACE, 4);
    memcpy(b, sent + PLACE + 4, sizeof b);
    memset(to + 4, HELD, 9);
    word = misonkandi_relate_places(kinds[0], a[0], a[1], a[2], a[3], kinds[1], b[0], b[1], b[2], b[3], to + 4);
    memcpy(to, &word, 4);
    boxes = misonkandi_region_of_boxes(a[0], a[1], a[2], a[3], b[0], b[1], b[2], b[3]);
    memcpy(to + 13, &boxes, 4);
    region = misonkandi_region(to + 4);
    memcpy(to + 17, &region, 4);
}

static void serve(void)
{
    size_t have = 0;
    while (read_all(sent, SENT)) {
        answer(returned + have * RETURNED);
        if (++have == BATCH) {
            write_all(returned, have * RETURNED);
            have = 0;
        }
    }
    write_all(returned, have * RETURNED);
    end(0);
}

/* The system enters here with the stack at a multiple of 16; a call then leaves it as compiled code expects it. */
__asm__(".globl _start\n_start:\n    xor %ebp, %ebp\n    call serve_from_start\n");
void serve_from_start(void)
{
    serve();
}
