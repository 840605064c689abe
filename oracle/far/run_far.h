/* How a comparison in C asks a program that has the archive in it and that an emulator runs. */
#ifndef RUN_FAR_H
#define RUN_FAR_H

#include <stdint.h>
#include <stdio.h>

/* Ends the program with these words if something isn't good. */
void need(int good, const char *what);

/* Runs FAR under EMULATOR, with the one file from its start as its input and the other for its output, which is then
 * at its start. */
void run_far_side(FILE *in, FILE *out);

#endif
