/* The calls on a floor, in one call, a call a record, and in pieces. src/ours/floor_room.rs has the same numbers.
 *
 * A room is the answer's two numbers (8 bytes each) and the nine cells. A floor in pieces has a room and then, for each
 * piece, its count of bytes (4), four bytes and a room; the calls leave the word of the push in the place of the
 * count, then the word of a finish after it, and what that wrote. */
#ifndef FLOOR_CALLS_H
#define FLOOR_CALLS_H

#include "laid.h"
#include "misonkandi.h"

enum { ROOM = 25, ROOM_CELLS = 16, PIECE_ROOM = 8, PIECE = PIECE_ROOM + ROOM };

static struct {
    uint8_t before[PLAN_GUARD];
    misonkandi_pieces state;
    uint8_t after[PLAN_GUARD];
} kept, earlier;

static uint8_t piece_bytes[PLAN_BATCH];

static uint32_t floor_call(uint8_t *room, const uint8_t *bytes, size_t count)
{
    uint64_t *answer = laid(room, ROOM);
    return laid_back(misonkandi_floor((uint8_t *)(answer + 2), bytes, count, answer), room, ROOM);
}

/* As a caller feeds them without the call above. */
static uint32_t fed(uint8_t cells[9], const uint8_t *bytes, size_t count, uint64_t answer[2])
{
    answer[0] = answer[1] = 0;
    while (answer[0] < count) {
        uint32_t word = misonkandi_record(cells, bytes + answer[0], count - answer[0]);
        if (word >> 31)
            return word;
        answer[0] += word;
        answer[1]++;
    }
    return 0;
}

static uint32_t one_by_one_call(uint8_t *room, const uint8_t *bytes, size_t count)
{
    uint64_t *answer = laid(room, ROOM);
    return laid_back(fed((uint8_t *)(answer + 2), bytes, count, answer), room, ROOM);
}

/* The piece lies elsewhere at each push, with other bytes behind it: none of an earlier one can be read again. */
static uint32_t push_call(uint8_t *bytes, size_t count)
{
    memcpy(piece_bytes, bytes, count);
    memset(piece_bytes + count, kept.before[0], PLAN_GUARD);
    uint32_t word = misonkandi_push(&kept.state, piece_bytes, count);
    memcpy(bytes, piece_bytes, count);
    return word;
}

/* 0 in *left where the state or what lies beside it isn't as it was. */
static uint32_t finish_call(uint8_t *room, int *left)
{
    memcpy(&earlier, &kept, sizeof kept);
    uint64_t *answer = laid(room, ROOM);
    uint32_t word = misonkandi_finish(&kept.state, (uint8_t *)(answer + 2), answer);
    if (memcmp(&earlier, &kept, sizeof kept))
        *left = 0;
    return laid_back(word, room, ROOM);
}

/* A change beside the state, or of it where none may be, shows in the guard before the room. */
static uint32_t pieces_call(uint8_t *out, size_t out_count, uint8_t *bytes)
{
    int left = 1;
    memset(&kept, out[-1], sizeof kept);
    misonkandi_start(&kept.state, out + ROOM_CELLS);
    for (uint8_t *piece = out + ROOM; piece < out + out_count; piece += PIECE) {
        size_t count = word_at(piece);
        put_word(piece, push_call(bytes, count));
        bytes += count;
        put_word(piece + 4, finish_call(piece + PIECE_ROOM, &left));
    }
    uint32_t word = finish_call(out, &left);
    for (int i = 0; i < PLAN_GUARD; i++)
        if (kept.before[i] != out[-1] || kept.after[i] != out[-1])
            left = 0;
    if (!left)
        out[-PLAN_GUARD] ^= 1;
    return word;
}

#endif
