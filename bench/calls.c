/* Times the calls of the C library, and beside them those of a reference (reference.rs) and of a floor (floor.c), which
 * are libraries with the same calls. Each is called as a C program calls it: in a loop, with nothing between two calls.
 *
 * usage: calls FLOOR.so [REFERENCE.so]
 *        calls FLOOR.so --equal COUNT      compares the floor with ours on so many damaged frames
 *
 * Each row has the medians of many rounds; its last two cells are ratios of the least times. A round times the libraries
 * in turn, so that what else the machine does meets all of them. Before each block of rows the time of a call that does
 * nothing says how fast the machine is just then. */
#define _POSIX_C_SOURCE 200809L
#include <dlfcn.h>
#include <stddef.h>
#include <stdio.h>
#include <stdlib.h>
#include <time.h>
#include "rows.h"
#include "equal.h"

enum { ROUNDS = 201 };
enum { OURS, REFERENCE, FLOOR, LIBRARIES };

/* Those that are there. */
static const struct library *libraries[LIBRARIES];

static _Noreturn void give_up(const char *what, const char *why)
{
    fprintf(stderr, "calls: %s: %s\n", what, why);
    exit(1);
}

static void *symbol(void *handle, const char *path, const char *name)
{
    void *found = dlsym(handle, name);
    if (!found) {
        fprintf(stderr, "calls: %s: has no function %s\n", path, name);
        exit(1);
    }
    return found;
}

static struct library load(const char *path, int is_floor)
{
#define LOAD(name) *(void **)&library.name = symbol(handle, path, "lk_" #name);
    struct library library = {0};
    void *handle = dlopen(path, RTLD_NOW | RTLD_LOCAL);
    if (!handle)
        give_up("cannot load a library", dlerror());
    PACKET_CALLS(LOAD)
    if (is_floor) {
        FRAME_CALLS(LOAD)
    } else {
        TEXT_CALLS(LOAD)
        *(void **)&library.ipv4_parsed_by_core = symbol(handle, path, "core_parse_ipv4");
        *(void **)&library.ipv6_parsed_by_core = symbol(handle, path, "core_parse_ipv6");
    }
    return library;
}

static double nanoseconds(const struct library *library, const struct row *row, uint64_t calls)
{
    struct timespec start, end;
    clock_gettime(CLOCK_MONOTONIC, &start);
    sink += row->repeat(library, row, calls);
    clock_gettime(CLOCK_MONOTONIC, &end);
    return (double)(end.tv_sec - start.tv_sec) * 1e9 + (double)(end.tv_nsec - start.tv_nsec);
}

/* So many calls that a sample is long enough for the clock. */
static uint64_t calls_of_a_sample(const struct library *library, const struct row *row)
{
    uint64_t calls = 1;
    while (nanoseconds(library, row, calls) < 2e5)
        calls *= 2;
    return calls;
}

static int compare(const void *a, const void *b)
{
    double x = *(const double *)a, y = *(const double *)b;
    return (x > y) - (x < y);
}

/* The time of a call, in nanoseconds; 0 where there is no such call. */
struct time {
    double median, least;
};

static struct time time_of(double samples[ROUNDS])
{
    qsort(samples, ROUNDS, sizeof samples[0], compare);
    return (struct time){samples[ROUNDS / 2], samples[0]};
}

/* Whether two libraries return and store the same. */
static int agree(const struct row *row, const struct library *ours, const struct library *other)
{
    static __typeof__(out) stored;
    memset(&out, 0, sizeof out);
    next_frame = 0;
    uint64_t answer = row->repeat(ours, row, 1);
    clear_padding(&out.frame);
    stored = out;
    memset(&out, 0, sizeof out);
    next_frame = 0;
    if (row->repeat(other, row, 1) != answer)
        return 0;
    clear_padding(&out.frame);
    return memcmp(&out, &stored, sizeof out) == 0;
}

static void print_cell(int digits, double value)
{
    if (value > 0)
        printf(" %9.*f |", digits, value);
    else
        printf(" %9s |", "");
}

static void print_row(const struct row *row, const struct time times[LIBRARIES])
{
    const struct time ours = times[OURS];
    printf("| %-34s | %7zu |", row->name, row->size);
    for (int i = 0; i < LIBRARIES; i++)
        print_cell(1, times[i].median);
    print_cell(2, times[REFERENCE].median / ours.median);
    print_cell(2, times[FLOOR].median / ours.median);
    print_cell(2, times[REFERENCE].least / ours.least);
    print_cell(2, times[FLOOR].least / ours.least);
    printf("\n");
    fflush(stdout);
}

/* Whether a library has the call of a row. */
static int has(int library, const struct row *row)
{
    if (!libraries[library] || library == OURS)
        return libraries[library] != NULL;
    return row->owners == IN_ALL || row->owners == (library == FLOOR ? IN_FLOOR : IN_REFERENCE);
}

static void run(const struct row *row)
{
    static const char *const names[LIBRARIES] = {"ours", "the reference", "the floor"};
    static double samples[LIBRARIES][ROUNDS];
    struct time times[LIBRARIES] = {0};
    row->prepare(row);
    next_frame = 0;
    uint64_t calls = calls_of_a_sample(libraries[OURS], row);
    for (int round = 0; round < ROUNDS; round++)
        for (int i = 0; i < LIBRARIES; i++)
            if (has(i, row))
                samples[i][round] = nanoseconds(libraries[i], row, calls) / (double)calls;
    for (int i = 0; i < LIBRARIES; i++)
        if (has(i, row)) {
            times[i] = time_of(samples[i]);
            if (!agree(row, libraries[OURS], libraries[i]))
                fprintf(stderr, "calls: %s, %zu bytes: %s answers otherwise\n", row->name, row->size, names[i]);
        }
    print_row(row, times);
}

static int do_nothing(const struct lk_prefix *of, const struct lk_addr *addr)
{
    (void)of, (void)addr;
    return 0;
}

static void run_nothing(void)
{
    static const struct library nothing = {.contains = do_nothing};
    static const struct row row = {.name = "a null call", .prepare = prepare_bytes, .repeat = call_contains_ipv4};
    const struct library *ours = libraries[OURS];
    libraries[OURS] = &nothing;
    run(&row);
    libraries[OURS] = ours;
}

static void run_after_nothing(const struct row *row)
{
    if (row->is_first)
        run_nothing();
    run(row);
}

int main(int argc, char **argv)
{
#define OWN(name) .name = lk_##name,
    static const struct library ours = {
        PACKET_CALLS(OWN)
        FRAME_CALLS(OWN)
        TEXT_CALLS(OWN)
        OWN_CALLS(OWN)
        .ipv4_parsed_by_core = lk_parse_addr,
        .ipv6_parsed_by_core = lk_parse_addr,
    };
    static struct library floor, reference;
    if (argc < 2 || argc > 4)
        give_up("usage", "calls FLOOR.so [REFERENCE.so | --equal COUNT]");
    floor = load(argv[1], 1);
    if (argc == 4)
        return compare_on_damaged(&ours, &floor, strtoull(argv[3], NULL, 10));
    libraries[OURS] = &ours;
    libraries[FLOOR] = &floor;
    if (argc == 3) {
        reference = load(argv[2], 0);
        libraries[REFERENCE] = &reference;
    }
    printf("| Call | Bytes | ours ns | reference ns | floor ns | speed | floor / ours | least: speed | floor / ours |\n"
           "|---|---|---|---|---|---|---|---|---|\n");
    visit_rows(run_after_nothing);
    return 0;
}
