/* Request R-9's reading, a second time, in plain C: a walk over the text that takes what may come next, or stops.
 * Where it stops no text could go on. */
#include "wkt.h"
#include <string.h>

typedef struct {
    const uint8_t *bytes;
    size_t count, at;
    state now;
    int far;
    size_t pairs;
    spot first, last;
    reading *into;
} walk;

static int byte_here(const walk *w) { return w->at < w->count ? w->bytes[w->at] : -1; }

static int digit_here(const walk *w) { return byte_here(w) >= '0' && byte_here(w) <= '9'; }

static int take(walk *w, int byte)
{
    if (byte_here(w) != byte)
        return 0;
    w->at++;
    return 1;
}

static void take_spaces(walk *w, state next)
{
    while (take(w, ' '))
        w->now = next;
}

/* How many letters of the keyword the text begins with, in any case. */
static size_t letters(const walk *w, const char *word)
{
    size_t k = 0;
    while (word[k] && k < w->count && (w->bytes[k] == word[k] || w->bytes[k] == word[k] + 'a' - 'A'))
        k++;
    return k;
}

/* The kind whose keyword the text begins with, or 0 behind the last letter that one of them could have. */
static uint32_t take_keyword(walk *w)
{
    static const char *const words[] = {"POINT", "LINESTRING", "POLYGON"};
    w->now = KEYWORD;
    for (uint32_t kind = POINT; kind <= POLYGON; kind++) {
        size_t k = letters(w, words[kind - 1]);
        if (k > w->at)
            w->at = k;
        if (!words[kind - 1][k])
            return kind;
    }
    return 0;
}

static int take_opening(walk *w)
{
    w->now = OPENING;
    take_spaces(w, OPENING);
    return take(w, '(');
}

/* A number beyond the range has some value beyond it. */
static int take_number(walk *w, int32_t *value)
{
    int64_t size = 0;
    int minus = take(w, '-');
    if (!digit_here(w))
        return 0;
    for (; digit_here(w); w->at++)
        size = size > LIMIT ? size : 10 * size + byte_here(w) - '0';
    w->now = NUMBER_END;
    w->far |= size > LIMIT;
    *value = size > LIMIT ? 0 : (int32_t)(minus ? -size : size);
    return 1;
}

static void keep(walk *w, spot p)
{
    if (w->pairs == 0)
        w->first = p;
    if (w->pairs < MOST) {
        w->into->xy[2 * w->pairs] = p.x;
        w->into->xy[2 * w->pairs + 1] = p.y;
    }
    w->last = p;
    w->pairs++;
}

static int take_pair(walk *w)
{
    spot p;
    w->now = NUMBER;
    take_spaces(w, NUMBER);
    if (!take_number(w, &p.x) || byte_here(w) != ' ')
        return 0;
    take_spaces(w, NUMBER);
    if (!take_number(w, &p.y))
        return 0;
    take_spaces(w, PAIR_END);
    keep(w, p);
    return 1;
}

static int take_pairs(walk *w, uint32_t kind)
{
    do {
        if (!take_pair(w))
            return 0;
    } while (kind != POINT && take(w, ','));
    return take(w, ')');
}

/* The kind, if the whole text is one of the grammar; else 0, with the walk where no text could go on. */
static uint32_t take_text(walk *w)
{
    uint32_t kind = take_keyword(w);
    if (!kind || !take_opening(w) || (kind == POLYGON && !take_opening(w)) || !take_pairs(w, kind))
        return 0;
    if (kind == POLYGON) {
        w->now = RING_END;
        take_spaces(w, RING_END);
        if (!take(w, ')'))
            return 0;
    }
    w->now = BEHIND;
    return w->at == w->count ? kind : 0;
}

static uint32_t refusal_of(const walk *w, uint32_t kind)
{
    static const size_t least[] = {1, 2, 4}, most[] = {1, MOST, MOST + 1};
    if (!kind)
        return REFUSED(BAD_TEXT) + (uint32_t)(w->at < 255 ? w->at : 255);
    if (w->pairs < least[kind - 1] || w->pairs > most[kind - 1])
        return REFUSED(CORNER_COUNT);
    if (w->far)
        return REFUSED(OUT_OF_RANGE);
    return kind == POLYGON && (w->first.x != w->last.x || w->first.y != w->last.y) ? REFUSED(RING_OPEN) : 0;
}

state read_by_rule(const uint8_t *bytes, size_t count, reading *r)
{
    walk w = {.bytes = bytes, .count = count, .into = r};
    memset(r, HELD, sizeof *r);
    uint32_t kind = take_text(&w);
    r->word = refusal_of(&w, kind);
    r->answer[2] = kind ? 0 : w.at;
    size_t held = 0;
    if (!r->word) {
        held = kind == POLYGON ? w.pairs - 1 : w.pairs;
        r->answer[0] = kind;
        r->answer[1] = held;
    }
    memset(r->xy + 2 * held, HELD, sizeof r->xy - 8 * held);
    return w.now;
}

int same_reading(const reading *a, const reading *b)
{
    return a->word == b->word && !memcmp(a->answer, b->answer, sizeof a->answer) &&
           !memcmp(a->xy, b->xy, sizeof a->xy);
}

shape shape_read(const reading *r)
{
    shape s = {.kind = (uint32_t)r->answer[0], .list.numbers = 2 * r->answer[1]};
    memcpy(s.list.corners, r->xy, 8 * r->answer[1]);
    return s;
}
