/* Counts the instructions that a program or a library executes: with the trap flag the processor stops before each of
 * them. Those of other files of the process are not counted, since libc has another memcpy for another processor. In
 * their place the calls of memcpy and the like are counted, and their bytes. This needs LD_BIND_NOW in the environment.
 * Compile with -mno-red-zone: the flags go over the stack. */
#include <link.h>
#include <signal.h>
#include <stdint.h>
#include <string.h>
#include <strings.h>
#include <ucontext.h>

static volatile uint64_t steps, libc_calls, libc_bytes;
static uintptr_t code, code_len;

/* Whether a function of libc whose third argument is a number of bytes begins there. */
static int is_of_bytes(uintptr_t at)
{
    return at == (uintptr_t)memcpy || at == (uintptr_t)memmove || at == (uintptr_t)memset || at == (uintptr_t)memcmp
           || at == (uintptr_t)bcmp;
}

static void count_step(int number, siginfo_t *info, void *context)
{
    static int was_inside;
    const greg_t *registers = ((ucontext_t *)context)->uc_mcontext.gregs;
    uintptr_t at = (uintptr_t)registers[REG_RIP];
    (void)number, (void)info;
    if (was_inside && is_of_bytes(at)) {
        libc_calls++;
        libc_bytes += (uint64_t)registers[REG_RDX];
    }
    was_inside = at - code < code_len;
    steps += (uint64_t)was_inside;
}

/* Takes the code around an address, or that of the first file, the program, for null. */
static int take_code(struct dl_phdr_info *file, size_t size, void *address)
{
    (void)size;
    for (int i = 0; i < file->dlpi_phnum; i++) {
        const ElfW(Phdr) *part = &file->dlpi_phdr[i];
        uintptr_t begin = file->dlpi_addr + part->p_vaddr;
        if (part->p_type == PT_LOAD && part->p_flags & PF_X && (!address || (uintptr_t)address - begin < part->p_memsz)) {
            code = begin;
            code_len = part->p_memsz;
            return 1;
        }
    }
    return 0;
}

static void prepare_steps(void *address)
{
    struct sigaction action = {.sa_sigaction = count_step, .sa_flags = SA_SIGINFO};
    dl_iterate_phdr(take_code, address);
    sigaction(SIGTRAP, &action, NULL);
}

static inline void begin_steps(void)
{
    steps = libc_calls = libc_bytes = 0;
    __asm__ volatile("pushfq\n\torq $0x100, (%%rsp)\n\tpopfq" ::: "memory", "cc");
}

static inline void end_steps(void)
{
    __asm__ volatile("pushfq\n\tandq $~0x100, (%%rsp)\n\tpopfq" ::: "memory", "cc");
}
