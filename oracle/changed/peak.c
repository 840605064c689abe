/* Runs a program and says on standard error its processor seconds and its peak memory in KiB: a small process of its own starts it, since
 * a process carries the peak of the one that it was started from. */
#include <stdio.h>
#include <sys/resource.h>
#include <sys/wait.h>
#include <unistd.h>

int main(int argc, char **argv)
{
    struct rusage used;
    int status;
    pid_t child = argc > 1 ? fork() : -1;
    if (child == 0) {
        execv(argv[1], argv + 1);
        _exit(127);
    }
    if (child < 0 || wait4(child, &status, 0, &used) != child || status != 0) return 1;
    fprintf(stderr, "%ld.%06ld %ld\n", (long)(used.ru_utime.tv_sec + used.ru_stime.tv_sec + (used.ru_utime.tv_usec + used.ru_stime.tv_usec) / 1000000),
            (long)((used.ru_utime.tv_usec + used.ru_stime.tv_usec) % 1000000), (long)used.ru_maxrss);
    return 0;
}
