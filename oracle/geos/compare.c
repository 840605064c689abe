/* compare [--list] [PAIRS [SEED]]: GEOS, document 01's rules in plain C and the library, on the same pairs of places, and
 * the region of two boxes by request R-13's patterns on GEOS's letters. Exit status 0: all say the same of every pair.
 * --list also prints GEOS's answer for each pair. */
#include "places.h"
#include <stdio.h>
#include <stdlib.h>
#include <string.h>

static int list;
static long asked, differ, regions[8];

static void show(const place *p)
{
    printf("%u:(%.17g,%.17g)-(%.17g,%.17g) ", p->kind, p->x0, p->y0, p->x1, p->y1);
}

static void show_pair(const char *what, const pair *p, const char *letters)
{
    printf("%s", what);
    show(&p->a);
    show(&p->b);
    printf("%s\n", letters);
}

/* Whether the library answered this matrix; or, without letters, refusal 13 and the cells left as they were. */
static int said(const answer *ours, const char *letters)
{
    uint8_t due[9];
    for (int i = 0; i < 9; i++)
        due[i] = letters ? (uint8_t)(strchr("F012", letters[i]) - "F012") : HELD;
    return ours->word == (letters ? 0u : NOT_A_PLACE) && !memcmp(due, ours->cells, 9);
}

/* Two boxes have one of the eight regions, asked by their corners and by the matrix; of other places the matrix alone. */
static int region_said(const pair *p, const answer *ours, const char *letters)
{
    uint32_t due = region_of(letters);
    if (!p->a.kind || !p->b.kind)
        return ours->region == due;
    if (due < 8)
        regions[due]++;
    return due < 8 && ours->boxes == due && ours->region == due;
}

static void compare_one(const pair *p, const answer *ours, uint64_t turn)
{
    char theirs[10], rule[10];
    GEOSGeometry *a = geometry(&p->a, turn & 1), *b = geometry(&p->b, turn >> 1 & 1);
    by_geos(a, b, theirs);
    by_the_rules(p, rule);
    GEOSGeom_destroy_r(geos(), a);
    GEOSGeom_destroy_r(geos(), b);
    if (list)
        show_pair("", p, theirs);
    if (strcmp(theirs, rule) || !said(ours, rule) || !region_said(p, ours, theirs)) {
        differ++;
        show_pair("DIFFERENT: GEOS, the rules, the library: ", p, theirs);
        printf("  %s, word %u, regions %u and %u\n", rule, ours->word, ours->boxes, ours->region);
    }
}

/* GEOS isn't asked about what is no place: it has no number for it. */
static void compare_refused(const pair *p, const answer *ours)
{
    int boxes = p->a.kind != 1 || p->b.kind != 1 || ours->boxes == NOT_A_PLACE;
    if (!are_places(p) && said(ours, NULL) && boxes)
        return;
    differ++;
    show_pair("DIFFERENT: not refused: ", p, "");
}

static void compare_all(const char *name, pair *pairs, long count, int places)
{
    answer *answers = malloc((size_t)count * sizeof *answers);
    if (!answers)
        exit(2);
    all_by_library(pairs, answers, count);
    for (long i = 0; i < count; i++)
        if (places)
            compare_one(&pairs[i], &answers[i], (uint64_t)i * 0x9e3779b97f4a7c15u >> 32);
        else
            compare_refused(&pairs[i], &answers[i]);
    asked += count;
    printf("%s: %ld pairs, %ld differ so far\n", name, count, differ);
    free(answers);
    free(pairs);
}

int main(int argc, char **argv)
{
    list = argc > 1 && !strcmp(argv[1], "--list");
    long count = argc > 1 + list ? atol(argv[1 + list]) : 200000, k;
    uint64_t seed = argc > 2 + list ? strtoull(argv[2 + list], NULL, 10) : 1;
    start_geos();
    pair *pairs = grid_pairs(3, &k);
    compare_all("grid 0..3", pairs, k, 1);
    if (count > 0)
        compare_all("random", random_pairs(count, seed), count, 1);
    pairs = refused_pairs(&k);
    compare_all("no places, GEOS not asked", pairs, k, 0);
    printf("two boxes:");
    for (int i = 0; i < 8; i++)
        printf(" %s %ld%s", region_name(i), regions[i], i < 7 ? "," : "\n");
    printf("%ld pairs, %ld differ. GEOS %s; the library: %s; seed %llu\n", asked, differ, GEOSversion(), OURS,
           (unsigned long long)seed);
    return differ != 0;
}
