/* Answers calls of the C interface that come as records on standard input: the library's side of a comparison that
 * runs on a processor that the library isn't built for. It is x86-64 Linux code without a C library, so that a
 * compiler and a linker are enough to build it. src/ours/far.rs is the other side and has the same numbers.
 *
 * A batch is its count (4 bytes), then for each call: operation, a (4), b (4), dimension, count of text bytes, the nine
 * cells with a guard of nine on either side (27), text (24). The answer to each: word (4), the 27 bytes, the text.
 *
 * If the count's highest bit is set, calls on ends, records, reports, outlines, texts and floors follow, and the other
 * bits count their bytes. For each: operation, a (4), b (4), offset (8), count of `out` (4), count of `bytes` (4), then
 * out and bytes with a guard of 16 before, between and after. The calls are made where these lie, but for numbers and
 * pieces, and all comes back with the word in the place of a. */
#include "floor_calls.h"
#include "traced_calls.h"

enum { GUARD = 9, LENT = 27, LONGEST = 24, SENT = 11 + LENT + LONGEST, RETURNED = 4 + LENT + LONGEST, BATCH = 1024 };

enum { PLAN_HEAD = 25 };

static uint8_t sent[BATCH * SENT];
static uint8_t returned[BATCH * RETURNED];
static uint8_t plans[PLAN_BATCH];

static uint32_t call(uint8_t operation, uint32_t a, uint32_t b, uint8_t dimension, uint8_t count, uint8_t *cells,
                     uint8_t *text)
{
    switch (operation) {
    case 0: return misonkandi_predicates(cells);
    case 1: return misonkandi_predicate(cells, a);
    case 2: return misonkandi_matches(cells, text, count);
    case 3: return misonkandi_from_text(cells, text, count);
    case 4: return misonkandi_raise_from_text(cells, text, count);
    case 5: misonkandi_to_text(cells, text); return 0;
    case 6: return misonkandi_set(cells, a, b, dimension);
    case 7: return misonkandi_set_at_least(cells, a, b, dimension);
    case 8: misonkandi_transpose(cells); return 0;
    case 9: return misonkandi_verdict(cells, a);
    case 10: return misonkandi_verdict_pattern(cells, text, count);
    case 11: return misonkandi_predicate_named(text, count);
    case 40: return misonkandi_region(cells);
    case 41: return misonkandi_region_named(text, count);
    }
    end(4);
    return 0;
}

static void answer(const uint8_t *from, uint8_t *to)
{
    uint8_t *lent = to + 4, *text = lent + LENT;
    memcpy(lent, from + 11, LENT + LONGEST);
    uint32_t word = call(from[0], word_at(from + 1), word_at(from + 5), from[9], from[10], lent + GUARD, text);
    put_word(to, word);
}

static uint32_t outline_call(uint8_t *bytes, size_t count, uint32_t x, uint32_t y)
{
    const int32_t *xy = laid(bytes, count);
    return laid_back(misonkandi_point_in_outline(xy, count / 4, (int32_t)x, (int32_t)y), bytes, count);
}

/* The three numbers of the answer, then the corners' numbers. */
static uint32_t read_wkt_call(const uint8_t *text, size_t count, uint8_t *room, size_t room_count)
{
    uint64_t *answer = laid(room, room_count);
    return laid_back(misonkandi_read_wkt(text, count, (int32_t *)(answer + 3), answer), room, room_count);
}

static uint32_t write_wkt_call(uint32_t kind, uint8_t *shape, size_t shape_count, uint8_t *buffer, size_t room,
                               size_t offset)
{
    const int32_t *xy = laid(shape, shape_count);
    uint32_t word = misonkandi_write_wkt(kind, xy, shape_count / 4, buffer, room, offset);
    return laid_back(word, shape, shape_count);
}

static uint32_t plan_call(uint8_t operation, uint32_t a, uint32_t b, size_t offset, uint8_t *out, size_t out_count,
                          uint8_t *bytes, size_t count)
{
    switch (operation) {
    case 0: return misonkandi_bundle(bytes, count, out);
    case 1: return misonkandi_star(bytes, count, a, b, out, out_count);
    case 2: return misonkandi_record(out, bytes, count);
    case 3: return misonkandi_read_report(out, bytes, count);
    case 4: return misonkandi_write_report(out, bytes, count, offset);
    case 5: return misonkandi_write_short_report(out, bytes, count, offset);
    case 6: return misonkandi_convert_report(bytes, count, out, out_count, offset);
    case 7: return outline_call(bytes, count, a, b);
    case 8: return read_wkt_call(bytes, count, out, out_count);
    case 9: return write_wkt_call(a, out, out_count, bytes, count, offset);
    case 10: return floor_call(out, bytes, count);
    case 11: return one_by_one_call(out, bytes, count);
    case 12: return pieces_call(out, out_count, bytes);
    case 13: return misonkandi_convert_record(bytes, count, out, out_count, offset);
    case 40: return misonkandi_region_name(a, bytes, count, offset);
    case 50: case 51: case 52: return traced_call(operation, out, bytes, count);
    }
    end(6);
    return 0;
}

/* Answers the call that lies here, in place, and gives the place of the next one. */
static uint8_t *answer_plan(uint8_t *at)
{
    size_t offset = word_at(at + 9) | (size_t)word_at(at + 13) << 32;
    size_t out_count = word_at(at + 17), count = word_at(at + 21);
    uint8_t *out = at + PLAN_HEAD + PLAN_GUARD;
    uint8_t *bytes = out + out_count + PLAN_GUARD;
    uint32_t word = plan_call(at[0], word_at(at + 1), word_at(at + 5), offset, out, out_count, bytes, count);
    put_word(at + 1, word);
    return bytes + count + PLAN_GUARD;
}

static void serve_plans(uint32_t count)
{
    if (count > PLAN_BATCH || !read_all(plans, count))
        end(5);
    for (uint8_t *at = plans; at < plans + count;)
        at = answer_plan(at);
    write_all(plans, count);
}

static void serve(void)
{
    uint8_t head[4];
    while (read_all(head, 4)) {
        uint32_t count = word_at(head);
        if (count >> 31) {
            serve_plans(count & 0x7FFFFFFF);
            continue;
        }
        if (count > BATCH || !read_all(sent, count * SENT))
            end(5);
        for (uint32_t i = 0; i < count; i++)
            answer(sent + i * SENT, returned + i * RETURNED);
        write_all(returned, count * RETURNED);
    }
    end(0);
}

/* The system enters here with the stack at a multiple of 16; a call then leaves it as compiled code expects it. */
__asm__(".globl _start\n_start:\n    xor %ebp, %ebp\n    call serve_from_start\n");
void serve_from_start(void)
{
    serve();
}
