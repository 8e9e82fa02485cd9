/* lk_cpu_supported is in C, because it has to run on processors that cannot run the proved code. */
#include <cpuid.h>
#include "ip_wire.h"

int lk_cpu_supported(void)
{
    const unsigned needed = bit_SSSE3 | bit_SSE4_1 | bit_SSE4_2 | bit_POPCNT;
    unsigned a, b, c, d;
    return __get_cpuid(1, &a, &b, &c, &d) && (c & needed) == needed;
}
