/* Is loaded into a program before it starts (LD_PRELOAD): a timer sends it a signal every 100 microseconds, which a
 * handler takes, so that a read that waits breaks off with EINTR. At the end it says on standard error how many did. */
#define _GNU_SOURCE
#include <errno.h>
#include <signal.h>
#include <stdio.h>
#include <sys/syscall.h>
#include <sys/time.h>
#include <unistd.h>

static long broken_off;

ssize_t read(int file, void *to, size_t count)
{
    ssize_t got = syscall(SYS_read, file, to, count);
    if (got < 0 && errno == EINTR)
        broken_off++;
    return got;
}

static void nothing(int number)
{
    (void)number;
}

/* Without SA_RESTART: the system doesn't try a read again by itself. */
__attribute__((constructor)) static void begin(void)
{
    struct sigaction action = {.sa_handler = nothing};
    struct itimerval often = {{0, 100}, {0, 100}};
    sigaction(SIGALRM, &action, NULL);
    setitimer(ITIMER_REAL, &often, NULL);
}

__attribute__((destructor)) static void tell(void)
{
    struct itimerval never = {{0, 0}, {0, 0}};
    setitimer(ITIMER_REAL, &never, NULL);
    dprintf(2, "%ld\n", broken_off);
}
