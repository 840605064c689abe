/* Runs a program that has the archive in it (FAR) under what runs it (EMULATOR). Questions go to it through a file,
 * the answers come back through another. */
#include "run_far.h"
#include <stdlib.h>
#include <sys/wait.h>
#include <unistd.h>

void need(int good, const char *what)
{
    if (good)
        return;
    fprintf(stderr, "%s\n", what);
    exit(2);
}

void run_far_side(FILE *in, FILE *out)
{
    need(!fflush(in) && lseek(fileno(in), 0, SEEK_SET) == 0, "the questions weren't written");
    pid_t child = fork();
    if (child == 0) {
        if (dup2(fileno(in), 0) < 0 || dup2(fileno(out), 1) < 0)
            _exit(2);
        execl(EMULATOR, EMULATOR, FAR, (char *)NULL);
        _exit(2);
    }
    int status;
    need(child > 0 && waitpid(child, &status, 0) == child && status == 0, "the far side failed");
    rewind(out);
}
