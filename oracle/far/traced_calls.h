/* The calls on a traced matrix. src/ours/traced_room.rs has the same room: a floor's two numbers (8 bytes each), ten
 * numbers (4 each), nine cells. */
#ifndef TRACED_CALLS_H
#define TRACED_CALLS_H

#include "laid.h"
#include "misonkandi.h"

enum { TRACED_ROOM = 65 };

static uint32_t traced_call(uint8_t operation, uint8_t *room, const uint8_t *bytes, size_t count)
{
    uint64_t *answer = laid(room, TRACED_ROOM);
    uint32_t *ten = (uint32_t *)(answer + 2);
    uint8_t *cells = (uint8_t *)(ten + 10);
    uint32_t word = 0;
    switch (operation) {
    case 50: word = misonkandi_traced_record(cells, ten, bytes, count); break;
    case 51: word = misonkandi_traced_floor(cells, ten, bytes, count, answer); break;
    case 52: misonkandi_traced_transpose(cells, ten); break;
    }
    return laid_back(word, room, TRACED_ROOM);
}

#endif
