/* A library to preload (LD_PRELOAD): each sync of a file takes SYNC_NANOSECONDS at least, those of the sync itself among them.
 *
 * The program syncs its journal by `fsync`, and nothing else. */
#define _GNU_SOURCE
#include <errno.h>
#include <stdlib.h>
#include <sys/syscall.h>
#include <time.h>
#include <unistd.h>

/* Waits until so many nanoseconds have gone by since then. */
static void wait_since(struct timespec then)
{
    const char *text = getenv("SYNC_NANOSECONDS");
    long long end = then.tv_nsec + (text ? atoll(text) : 0);
    then.tv_sec += end / 1000000000;
    then.tv_nsec = end % 1000000000;
    while (clock_nanosleep(CLOCK_MONOTONIC, TIMER_ABSTIME, &then, NULL) == EINTR)
        ;
}

static int synced(long call, int fd)
{
    struct timespec start;
    clock_gettime(CLOCK_MONOTONIC, &start);
    int result = syscall(call, fd);
    int error = errno;
    wait_since(start);
    errno = error;
    return result;
}

int fsync(int fd)
{
    return synced(SYS_fsync, fd);
}

int fdatasync(int fd)
{
    return synced(SYS_fdatasync, fd);
}
