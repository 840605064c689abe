/* The library's side. Linked: `misonkandi_relate_places`, `misonkandi_region_of_boxes` and `misonkandi_region` are called
 * here. With FAR: a program that has the archive in it (far_places.c) is asked, as ../far/run_far.c does it. */
#include "places.h"
#include <string.h>

#ifndef FAR

#include "misonkandi.h"

answer by_library(const pair *p)
{
    const place *a = &p->a, *b = &p->b;
    answer said;
    memset(said.cells, HELD, 9);
    said.word = misonkandi_relate_places(a->kind, a->x0, a->y0, a->x1, a->y1, b->kind, b->x0, b->y0, b->x1, b->y1, said.cells);
    said.boxes = misonkandi_region_of_boxes(a->x0, a->y0, a->x1, a->y1, b->x0, b->y0, b->x1, b->y1);
    said.region = misonkandi_region(said.cells);
    return said;
}

void all_by_library(const pair *pairs, answer *answers, long count)
{
    for (long i = 0; i < count; i++)
        answers[i] = by_library(&pairs[i]);
}

#else

#include "../far/run_far.h"
#include "far_places.h"

static void send(FILE *to, const place *p)
{
    const double four[4] = {p->x0, p->y0, p->x1, p->y1};
    need(fwrite(&p->kind, 4, 1, to) == 1 && fwrite(four, 8, 4, to) == 4, "a pair wasn't written");
}

void all_by_library(const pair *pairs, answer *answers, long count)
{
    FILE *in = tmpfile(), *out = tmpfile();
    need(in && out, "no room for a file");
    for (long i = 0; i < count; i++) {
        send(in, &pairs[i].a);
        send(in, &pairs[i].b);
    }
    run_far_side(in, out);
    for (long i = 0; i < count; i++) {
        uint8_t back[RETURNED];
        need(fread(back, RETURNED, 1, out) == 1, "an answer is missing");
        memcpy(&answers[i].word, back, 4);
        memcpy(answers[i].cells, back + 4, 9);
        memcpy(&answers[i].boxes, back + 13, 4);
        memcpy(&answers[i].region, back + 17, 4);
    }
    fclose(in);
    fclose(out);
}

#endif
