/* list [COUNT [SEED]]: prints texts that the library reads, and those that it writes, for others to read. A line has R
 * for a text that was read or W for one that was written, the kind, x and y of each corner by the library or given to
 * it, a tab, and the text. */
#include "wkt.h"
#include <stdio.h>
#include <stdlib.h>

static void print_line(char what, const shape *s, const uint8_t *bytes, size_t count)
{
    printf("%c %u", what, s->kind);
    for (size_t k = 0; k < s->list.numbers / 2; k++)
        printf(" %d %d", s->list.corners[k].x, s->list.corners[k].y);
    putchar('\t');
    fwrite(bytes, 1, count, stdout);
    putchar('\n');
}

/* Of a shape that is written several times, the text that fits its room exactly. */
static void print(const task *t)
{
    if (t->writes && t->wrote.word == t->room)
        print_line('W', &t->put, t->wrote.buffer + t->offset, t->wrote.word);
    if (!t->writes && !(t->read.word >> 31)) {
        shape s = shape_read(&t->read);
        print_line('R', &s, t->given.bytes, t->given.count);
    }
}

int main(int argc, char **argv)
{
    long count = argc > 1 ? atol(argv[1]) : 100000;
    uint64_t seed = argc > 2 ? strtoull(argv[2], NULL, 10) : 1;
    start_batches(print);
    good_tasks(count, seed);
    write_tasks(count / 2, seed);
    return 0;
}
