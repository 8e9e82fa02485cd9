/* A monotonic clock that goes FAST_CLOCK times as fast, or more slowly, as 0.01, and `poll` by it, to be preloaded. If
 * FAST_CLOCK_WHILE names a file, the clock goes so only while that file is there. If FAST_CLOCK_AHEAD names a file, the clock
 * is ahead by the number of seconds in it. */
#define _GNU_SOURCE
#include <fcntl.h>
#include <poll.h>
#include <stdlib.h>
#include <sys/syscall.h>
#include <time.h>
#include <unistd.h>

/* In nanoseconds. A `poll` looks at the file again after this. */
enum { SECOND = 1000000000, BETWEEN_LOOKS = SECOND / 20 };

static long long nanoseconds(clockid_t clock)
{
    struct timespec now;
    syscall(SYS_clock_gettime, clock, &now);
    return now.tv_sec * (long long)SECOND + now.tv_nsec;
}

static double factor(void)
{
    const char *file = getenv("FAST_CLOCK_WHILE");
    return file != NULL && access(file, F_OK) != 0 ? 1 : atof(getenv("FAST_CLOCK"));
}

static long long ahead(void)
{
    const char *name = getenv("FAST_CLOCK_AHEAD");
    char text[20] = "";
    int file = name != NULL ? open(name, O_RDONLY | O_CLOEXEC) : -1;
    if (file < 0)
        return 0;
    ssize_t len = read(file, text, sizeof text - 1);
    close(file);
    return len > 0 ? atoll(text) * SECOND : 0;
}

/* The time of this clock. */
static long long monotonic(void)
{
    static long long last, is; /* when it was asked for last, and what it was then */
    long long now = nanoseconds(CLOCK_MONOTONIC);
    is = last == 0 ? now : is + (long long)((double)(now - last) * factor());
    last = now;
    return is + ahead();
}

int clock_gettime(clockid_t clock, struct timespec *now)
{
    long long is = clock == CLOCK_MONOTONIC ? monotonic() : nanoseconds(clock);
    now->tv_sec = is / SECOND;
    now->tv_nsec = is % SECOND;
    return 0;
}

int poll(struct pollfd *files, nfds_t count, int timeout)
{
    long long end = monotonic() + timeout * 1000000LL;
    for (;;) {
        double wait = (double)(end - monotonic()) / factor();
        struct timespec step = {.tv_nsec = wait < 0 ? 0 : wait < BETWEEN_LOOKS ? (long)wait : BETWEEN_LOOKS};
        int ready = (int)syscall(SYS_ppoll, files, count, timeout < 0 ? NULL : &step, NULL, 0);
        if (ready != 0 || monotonic() >= end)
            return ready;
    }
}
