/* What the programs need of their process: output that never blocks, signals, a clock and help. */
#ifndef PROCESS_H
#define PROCESS_H

#include <fcntl.h>
#include <limits.h>
#include <poll.h>
#include <signal.h>
#include <stdarg.h>
#include <stdint.h>
#include <stdio.h>
#include <string.h>
#include <sys/signalfd.h>
#include <sys/stat.h>
#include <time.h>
#include <unistd.h>

/* A file for lines. A line that it does not take at once is dropped and counted. */
struct output {
    int file;
    int may_wait;          /* a write may wait for a reader */
    unsigned long dropped; /* lines since the last one that was written */
};

/* To be called first. Opens the standard files that are closed, so that no device gets their numbers. Ignores the
 * signals that tell of a pipe without a reader and of a file that is as long as it may be. */
static inline void prepare(void)
{
    int file;
    do
        file = open("/dev/null", O_RDWR);
    while (file >= 0 && file <= STDERR_FILENO);
    close(file);
    signal(SIGPIPE, SIG_IGN);
    signal(SIGXFSZ, SIG_IGN);
}

/* The output to a standard file. O_NONBLOCK belongs to an open file, which other programs may share. So a pipe or a
 * terminal is opened once more. */
static inline struct output open_output(int file)
{
    char path[32];
    struct stat status;
    struct output output = {.file = file, .may_wait = 1};
    if (isatty(file) || (fstat(file, &status) == 0 && S_ISFIFO(status.st_mode))) {
        snprintf(path, sizeof path, "/proc/self/fd/%d", file);
        int other = open(path, O_WRONLY | O_NONBLOCK | O_NOCTTY | O_CLOEXEC);
        if (other >= 0)
            output = (struct output){.file = other};
    }
    return output;
}

/* Prints a line, after the number of those that were dropped. A pipe takes PIPE_BUF bytes at once or none. */
__attribute__((format(printf, 2, 3))) static inline void print(struct output *output, const char *format, ...)
{
    char line[PIPE_BUF];
    va_list values;
    int begin = 0;
    if (output->dropped > 0)
        begin = snprintf(line, sizeof line, "output: dropped lines %lu\n", output->dropped);
    va_start(values, format);
    vsnprintf(line + begin, sizeof line - (size_t)begin, format, values);
    va_end(values);
    size_t len = strlen(line);
    if (len == sizeof line - 1)
        line[len - 1] = '\n'; /* the rest is cut */
    struct pollfd place = {.fd = output->file, .events = POLLOUT};
    if ((!output->may_wait || poll(&place, 1, 0) == 1) && write(output->file, line, len) == (ssize_t)len)
        output->dropped = 0;
    else
        output->dropped++;
}

/* SIGINT, SIGTERM and `others`, up to a 0, are read from the file that this returns, also if they were ignored. Returns
 * -1 if that fails. */
static inline int open_signals(const int *others)
{
    sigset_t wanted;
    sigemptyset(&wanted);
    sigaddset(&wanted, SIGINT);
    sigaddset(&wanted, SIGTERM);
    for (; *others != 0; others++)
        sigaddset(&wanted, *others);
    sigprocmask(SIG_BLOCK, &wanted, NULL);
    return signalfd(-1, &wanted, SFD_CLOEXEC | SFD_NONBLOCK);
}

/* The time of a clock that never goes back, in milliseconds. */
static inline int64_t milliseconds(void)
{
    struct timespec now;
    clock_gettime(CLOCK_MONOTONIC, &now);
    return (int64_t)now.tv_sec * 1000 + now.tv_nsec / 1000000;
}

static inline int asks_for_help(int argc, char **argv)
{
    for (int i = 1; i < argc; i++)
        if (strcmp(argv[i], "--help") == 0)
            return 1;
    return 0;
}

/* Prints the help that was asked for, else its first line as an error. Returns the status of the program. */
static inline int print_help(const char *help, int is_asked)
{
    if (is_asked)
        return fputs(help, stdout) < 0 || fflush(stdout) != 0;
    fprintf(stderr, "%.*s\n", (int)strcspn(help, "\n"), help);
    return 2;
}

#endif
