/* Random numbers that can be had again from their seed. */
#ifndef DRAW_H
#define DRAW_H

#include <stdint.h>

void start_draws(uint64_t seed);
uint64_t draw(void);

#endif
