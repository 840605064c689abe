/* The library's side. Linked: it is called here. With FAR: a program that has the archive in it (far_wkt.c) is asked,
 * as ../far/run_far.c does it. */
#include <string.h>

#ifndef FAR

#include "call.h"

void all_by_library(task *tasks, long count)
{
    for (task *t = tasks; t < tasks + count; t++)
        if (t->writes)
            call_write(&t->put, t->room, t->offset, &t->wrote);
        else
            call_read(t->given.bytes, t->given.count, &t->read);
}

#else

#include "../far/run_far.h"
#include "far_wkt.h"
#include "wkt.h"

static void send(FILE *to, const task *t)
{
    const uint64_t head[SENT] = {t->writes != 0, t->given.count, t->put.kind, t->put.list.numbers, t->room, t->offset};
    size_t size = t->writes ? 4 : 1, count = t->writes ? t->put.list.numbers : t->given.count;
    const void *rest = t->writes ? (const void *)t->put.list.corners : t->given.bytes;
    need(fwrite(head, sizeof head, 1, to) == 1 && fwrite(rest, size, count, to) == count, "a task wasn't written");
}

static void receive(FILE *from, task *t)
{
    void *to = t->writes ? (void *)&t->wrote : &t->read;
    need(fread(to, t->writes ? sizeof t->wrote : sizeof t->read, 1, from) == 1, "an answer is missing");
}

void all_by_library(task *tasks, long count)
{
    FILE *in = tmpfile(), *out = tmpfile();
    need(in && out, "no room for a file");
    for (long i = 0; i < count; i++)
        send(in, &tasks[i]);
    run_far_side(in, out);
    for (long i = 0; i < count; i++)
        receive(out, &tasks[i]);
    fclose(in);
    fclose(out);
}

#endif
