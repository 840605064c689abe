/* The clock of the benchmarks. */
#ifndef TIMING_H
#define TIMING_H

/* Runs a side and takes its nanoseconds for one call, if that is better than the best so far; 0 is none so far. */
void round_of(void (*side)(void), int calls, double *best);

#endif
