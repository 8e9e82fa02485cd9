/* A library to be preloaded: a program prints at its end, to standard error, how many instructions of its own it executed,
 * and its calls of memcpy and the like with their bytes. */
#define _GNU_SOURCE
#include <stdio.h>
#include "steps.h"

__attribute__((constructor)) static void begin(void)
{
    prepare_steps(NULL);
    begin_steps();
}

__attribute__((destructor)) static void end(void)
{
    end_steps();
    dprintf(2, "%llu %llu %llu\n", (unsigned long long)steps, (unsigned long long)libc_calls,
            (unsigned long long)libc_bytes);
}
