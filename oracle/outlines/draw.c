/* splitmix64, so that a run can be had again from its seed */
#include "draw.h"

static uint64_t state;

void start_draws(uint64_t seed) { state = seed; }

uint64_t draw(void)
{
    uint64_t z = (state += 0x9e3779b97f4a7c15u);
    z = (z ^ (z >> 30)) * 0xbf58476d1ce4e5b9u;
    z = (z ^ (z >> 27)) * 0x94d049bb133111ebu;
    return z ^ (z >> 31);
}
