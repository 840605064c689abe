/* Random spellings of one text: letters in any case, spaces between any two tokens, zeros in front of numbers and a
 * minus on zero. A text has its own habits, so that some are tight and some wide. */
#include "../outlines/draw.h"
#include "wkt.h"
#include <stdio.h>
#include <string.h>

/* At most so many spaces and zeros at a place, but for one place in some texts, which has many; letters: 0 capital, 1
 * small, 2 either. */
typedef struct {
    size_t spaces, zeros, many;
    int letters;
} habits;

static habits draw_habits(void)
{
    static const size_t most[4] = {0, 0, 1, 4};
    habits h = {.spaces = most[draw() % 4], .zeros = most[draw() % 4], .letters = (int)(draw() % 3)};
    if (draw() % 16 == 0)
        h.many = 1 + draw() % 300;
    return h;
}

static void add(text *t, const char *bytes) { put_in(t, t->count, bytes, strlen(bytes)); }

static void add_some(text *t, const char *byte, size_t most, habits *h)
{
    size_t count = draw() % (most + 1);
    if (most && h->many && draw() % 16 == 0) {
        count = h->many;
        h->many = 0;
    }
    while (count--)
        add(t, byte);
}

static void add_spaces(text *t, habits *h) { add_some(t, " ", h->spaces, h); }

static void add_keyword(text *t, const char *word, const habits *h)
{
    for (; *word; word++) {
        int small = h->letters == 2 ? (int)(draw() % 2) : h->letters;
        const char letter[2] = {(char)(small ? *word + 'a' - 'A' : *word), 0};
        add(t, letter);
    }
}

static void add_number(text *t, int32_t number, int far, habits *h)
{
    char digits[16];
    snprintf(digits, sizeof digits, "%lld", number < 0 ? -(long long)number : (long long)number);
    if (number < 0 || (number == 0 && h->zeros && draw() % 4 == 0))
        add(t, "-");
    add_some(t, "0", h->zeros, h);
    add(t, digits);
    /* Ten digits more than a 0 has are beyond the range, if the first isn't 0. */
    if (far) {
        add(t, "3");
        for (uint64_t more = 9 + draw() % 30; more--;)
            add(t, draw() % 2 ? "0" : "7");
    }
}

static void add_pair(text *t, spot p, int far, habits *h)
{
    add_spaces(t, h);
    add_number(t, p.x, far == 0, h);
    add(t, " ");
    add_spaces(t, h);
    add_number(t, p.y, far == 1, h);
    add_spaces(t, h);
}

void spell(uint32_t kind, const outline *pairs, int far, text *t)
{
    static const char *const words[] = {"POINT", "LINESTRING", "POLYGON"};
    habits h = draw_habits();
    t->count = 0;
    add_keyword(t, words[kind - 1], &h);
    add_spaces(t, &h);
    add(t, "(");
    if (kind == POLYGON) {
        add_spaces(t, &h);
        add(t, "(");
    }
    for (int k = 0; k < (int)pairs->numbers / 2; k++) {
        add(t, k ? "," : "");
        add_pair(t, pairs->corners[k], far == NONE_FAR ? NONE_FAR : far - 2 * k, &h);
    }
    add(t, ")");
    if (kind == POLYGON) {
        add_spaces(t, &h);
        add(t, ")");
    }
}
