/* Answers tasks that come as records on standard input, for a processor that the library isn't built for: x86-64 Linux
 * code without a C library, with the archive linked in. library.c is the other side. */
#include "../far/bare.h"
#include "call.h"
#include "far_wkt.h"

static uint8_t given[TEXT];
static shape put;
static reading read;
static writing wrote;

static void fill(void *to, uint64_t count, uint64_t most)
{
    if (count > most || (count && !read_all(to, count)))
        end(5);
}

static void answer(const uint64_t head[SENT])
{
    if (head[0]) {
        put.kind = (uint32_t)head[2];
        put.list.numbers = head[3];
        fill(put.list.corners, 4 * head[3], sizeof put.list.corners);
        call_write(&put, head[4], head[5], &wrote);
        write_all((const uint8_t *)&wrote, sizeof wrote);
    } else {
        fill(given, head[1], TEXT);
        call_read(given, head[1], &read);
        write_all((const uint8_t *)&read, sizeof read);
    }
}

static void serve(void)
{
    uint64_t head[SENT];
    while (read_all((uint8_t *)head, sizeof head))
        answer(head);
    end(0);
}

/* The system enters here with the stack at a multiple of 16; a call then leaves it as compiled code expects it. */
__asm__(".globl _start\n_start:\n    xor %ebp, %ebp\n    call serve_from_start\n");
void serve_from_start(void)
{
    serve();
}
