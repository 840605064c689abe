/* wkt_compare [COUNT [SEED]]: GEOS, request R-9's rules in plain C and the library, on the same texts and shapes. The
 * library must do exactly what the rules say. A text that it reads GEOS must read to the same shape; one that it
 * refuses GEOS must refuse too, or request R-9 has a reason to refuse it, which is counted. What it writes GEOS must
 * read to the same shape, and what GEOS writes it must read so. Exit status 0: all of that holds. */
#include "../outlines/draw.h"
#include "wkt_geos.h"
#include "wkt_reasons.h"
#include <stdio.h>
#include <stdlib.h>
#include <string.h>

enum { SHOWN = 20, NUMBERED = 256 };

typedef struct {
    long texts, both, neither, geos_alone, not_asked, shapes, written;
} counts;

static counts so_far, all;
static long differ, read_words[NUMBERED], write_words[NUMBERED], geos_texts, same_bytes;

static void expect(int good, const char *what, const uint8_t *bytes, size_t count)
{
    if (good || differ++ >= SHOWN)
        return;
    printf("DIFFERENT: %s: ", what);
    fwrite(bytes, 1, count, stdout);
    putchar('\n');
}

/* 0 for what isn't refused. */
static uint32_t number_of(uint32_t word) { return word >> 31 ? word >> 8 & 255 : 0; }

/* A byte 0 ends a text for GEOS, so it isn't asked about a text that has one. */
static void judge_by_geos(const text *t, const reading *rule, state now)
{
    static char bytes[TEXT + 1];
    memcpy(bytes, t->bytes, t->count);
    bytes[t->count] = 0;
    if (memchr(bytes, 0, t->count)) {
        so_far.not_asked++;
        return;
    }
    GEOSGeometry *g = geos_read(bytes);
    if (!rule->word) {
        shape s = shape_read(rule);
        so_far.both++;
        expect(g && is_shape(g, &s), "GEOS doesn't read the same shape", t->bytes, t->count);
    } else if (g) {
        so_far.geos_alone++;
        expect(count_reason(t, g, rule, now), "GEOS reads it, and there is no reason", t->bytes, t->count);
    } else
        so_far.neither++;
    GEOSGeom_destroy_r(geos(), g);
}

static void judge_reading(const task *t)
{
    reading rule;
    state now = read_by_rule(t->given.bytes, t->given.count, &rule);
    so_far.texts++;
    read_words[number_of(rule.word)]++;
    expect(same_reading(&rule, &t->read), "the library reads it otherwise", t->given.bytes, t->given.count);
    judge_by_geos(&t->given, &rule, now);
}

static void judge_writing(const task *t)
{
    writing rule;
    write_by_rule(&t->put, t->room, t->offset, &rule);
    so_far.shapes++;
    write_words[number_of(rule.word)]++;
    expect(same_writing(&rule, &t->wrote), "the library writes otherwise", rule.buffer, BUFFER);
    if (t->wrote.word >> 31)
        return;
    char bytes[BUFFER + 1] = "";
    memcpy(bytes, t->wrote.buffer + t->offset, t->wrote.word);
    GEOSGeometry *g = geos_read(bytes);
    so_far.written++;
    expect(g && is_shape(g, &t->put), "GEOS doesn't read what was written", (uint8_t *)bytes, t->wrote.word);
    GEOSGeom_destroy_r(geos(), g);
}

static void judge(const task *t)
{
    if (t->writes)
        judge_writing(t);
    else
        judge_reading(t);
}

/* A good text as GEOS writes it again: by the rule it has the same shape; and whether it has the rule's bytes. */
static void rewrite(text *t)
{
    reading before, after;
    writing rule;
    read_by_rule(t->bytes, t->count, &before);
    if (before.word) {
        expect(0, "a good text is refused", t->bytes, t->count);
        return;
    }
    shape s = shape_read(&before);
    write_by_rule(&s, BUFFER, 0, &rule);
    put_in(t, t->count, "", 1);
    GEOSGeometry *g = geos_read((const char *)t->bytes);
    char *bytes = g ? geos_write(g) : NULL;
    t->count = 0;
    put_in(t, 0, bytes ? bytes : "", bytes ? strlen(bytes) : 0);
    read_by_rule(t->bytes, t->count, &after);
    expect(same_reading(&before, &after), "GEOS writes another shape", t->bytes, t->count);
    geos_texts++;
    same_bytes += rule.word == t->count && !memcmp(rule.buffer, t->bytes, t->count);
    GEOSFree_r(geos(), bytes);
    GEOSGeom_destroy_r(geos(), g);
}

static void geos_tasks(long count, uint64_t seed)
{
    static text t;
    start_draws(seed);
    for (long i = 0; i < count; i++) {
        draw_text(&t);
        rewrite(&t);
        give_text(&t);
    }
    end_batch();
}

static void report(const char *name)
{
    printf("%s: %ld texts: both read %ld, both refuse %ld, GEOS alone reads %ld, GEOS not asked %ld; "
           "%ld shapes to write, %ld written; %ld differ so far\n",
           name, so_far.texts, so_far.both, so_far.neither, so_far.geos_alone, so_far.not_asked, so_far.shapes,
           so_far.written, differ);
    all.texts += so_far.texts;
    all.both += so_far.both;
    all.neither += so_far.neither;
    all.geos_alone += so_far.geos_alone;
    all.not_asked += so_far.not_asked;
    all.shapes += so_far.shapes;
    all.written += so_far.written;
    so_far = (counts){0};
}

static void report_good(const char *name)
{
    expect(so_far.both == so_far.texts, "refused", (const uint8_t *)"some good texts", 15);
    report(name);
}

static void print_words(const char *what, const long words[NUMBERED])
{
    printf("%s: %ld", what, words[0]);
    for (int number = 1; number < NUMBERED; number++)
        if (words[number])
            printf(", refused with %d %ld", number, words[number]);
    putchar('\n');
}

int main(int argc, char **argv)
{
    long count = argc > 1 ? atol(argv[1]) : 100000;
    uint64_t seed = argc > 2 ? strtoull(argv[2], NULL, 10) : 1;
    start_wkt_geos();
    start_batches(judge);
    good_tasks(count, seed);
    report_good("good texts");
    edge_tasks(count, seed + 1);
    report("at the edge of 16, 17 and 22");
    damaged_tasks(count, seed + 2);
    report("damaged texts");
    near_tasks();
    report("one byte from a good text");
    foreign_tasks(count, seed + 3);
    report("texts of others");
    geos_tasks(count / 2, seed + 4);
    report_good("GEOS's texts");
    write_tasks(count / 2, seed + 5);
    report("shapes");
    so_far = all;
    report("together");
    print_words("read", read_words);
    print_words("written", write_words);
    printf("GEOS's texts: %ld, of which %ld have our bytes\n", geos_texts, same_bytes);
    print_reasons();
    printf("GEOS %s; the library: %s; seed %llu; %ld differ\n", GEOSversion(), OURS, (unsigned long long)seed, differ);
    return differ != 0;
}
