/* Numbers as calls through a pipe have them, low byte first; and those that a call of the library is lent, laid where
 * it may read them. */
#ifndef LAID_H
#define LAID_H

#include "bare.h"

enum { PLAN_BATCH = 1 << 22, PLAN_GUARD = 16 };

static uint64_t numbers[PLAN_BATCH / 8];

static uint32_t word_at(const uint8_t *at)
{
    return at[0] | (uint32_t)at[1] << 8 | (uint32_t)at[2] << 16 | (uint32_t)at[3] << 24;
}

static void put_word(uint8_t *to, uint32_t word)
{
    for (int i = 0; i < 4; i++)
        to[i] = (uint8_t)(word >> 8 * i);
}

/* Numbers must lie at a multiple of their size. They are copied to where they do, guards too; then back. */
static void *laid(const uint8_t *bytes, size_t count)
{
    memcpy(numbers, bytes - PLAN_GUARD, count + 2 * PLAN_GUARD);
    return numbers + PLAN_GUARD / sizeof *numbers;
}

static uint32_t laid_back(uint32_t word, uint8_t *bytes, size_t count)
{
    memcpy(bytes - PLAN_GUARD, numbers, count + 2 * PLAN_GUARD);
    return word;
}

#endif
