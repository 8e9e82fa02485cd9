/* Prints how many instructions the shared library executes in a call of each row of bench/rows.h: the row, its size, the
 * count, and the calls of memcpy and the like with their bytes, with tabs between. Nothing is printed if the processor
 * cannot stop at each instruction. */
#define _GNU_SOURCE
#include "steps.h"
#include "../../bench/rows.h"

#define OWN(name) .name = lk_##name,
static const struct library ours = {PACKET_CALLS(OWN) FRAME_CALLS(OWN) TEXT_CALLS(OWN) OWN_CALLS(OWN)};

static void count(const struct row *row)
{
    if (!row->counted)
        return;
    row->prepare(row);
    next_frame = 0;
    begin_steps();
    uint64_t answers = row->repeat(&ours, row, row->counted);
    end_steps();
    sink += answers;
    printf("%s\t%zu\t%llu\t%llu\t%llu\n", row->name, row->size, (unsigned long long)(steps / row->counted),
           (unsigned long long)(libc_calls / row->counted), (unsigned long long)(libc_bytes / row->counted));
}

int main(void)
{
    prepare_steps((void *)ours.checksum);
    begin_steps();
    sink += ours.checksum(bytes, 20);
    end_steps();
    if (steps)
        visit_rows(count);
    return 0;
}
