/* What a program for x86-64 Linux needs here when it has no C library: reading, writing, ending. */
#ifndef BARE_H
#define BARE_H

#include <stddef.h>
#include <stdint.h>

static long system_call(long number, long first, long second, long third)
{
    long answer;
    __asm__ volatile("syscall"
                     : "=a"(answer)
                     : "a"(number), "D"(first), "S"(second), "d"(third)
                     : "rcx", "r11", "memory");
    return answer;
}

static void end(int status)
{
    for (;;)
        system_call(60, status, 0, 0);
}

/* Code that a compiler made may call these four. */
void *memcpy(void *to, const void *from, size_t count)
{
    uint8_t *t = to;
    const uint8_t *f = from;
    while (count--)
        *t++ = *f++;
    return to;
}

void *memmove(void *to, const void *from, size_t count)
{
    uint8_t *t = to;
    const uint8_t *f = from;
    if (t < f)
        return memcpy(to, from, count);
    while (count--)
        t[count] = f[count];
    return to;
}

void *memset(void *to, int byte, size_t count)
{
    uint8_t *t = to;
    while (count--)
        *t++ = (uint8_t)byte;
    return to;
}

int memcmp(const void *one, const void *other, size_t count)
{
    const uint8_t *a = one, *b = other;
    for (; count--; a++, b++)
        if (*a != *b)
            return *a - *b;
    return 0;
}

/* 1 if all bytes came, 0 at the end of the input before the first of them. */
static int read_all(uint8_t *to, size_t count)
{
    size_t have = 0;
    while (have < count) {
        long got = system_call(0, 0, (long)(to + have), (long)(count - have));
        if (got == 0 && have == 0)
            return 0;
        if (got <= 0)
            end(2);
        have += (size_t)got;
    }
    return 1;
}

static void write_all(const uint8_t *from, size_t count)
{
    while (count > 0) {
        long put = system_call(1, 1, (long)from, (long)count);
        if (put <= 0)
            end(3);
        from += put;
        count -= (size_t)put;
    }
}

#endif
