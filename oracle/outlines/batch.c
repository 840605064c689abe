/* Tasks are gathered, the library is asked about all of them, and each is judged. TASKS is the header that says what a
 * task is, for those that aren't on outlines. */
#ifndef TASKS
#define TASKS "outlines.h"
#endif
#include TASKS

enum { BATCH = 2048 };

static task batch[BATCH];
static long waiting;
static void (*judge)(const task *t);

void start_batches(void (*with)(const task *t)) { judge = with; }

void end_batch(void)
{
    all_by_library(batch, waiting);
    for (long i = 0; i < waiting; i++)
        judge(&batch[i]);
    waiting = 0;
}

void give(const task *t)
{
    batch[waiting++] = *t;
    if (waiting == BATCH)
        end_batch();
}
