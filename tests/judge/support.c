/* Random values, memory between guard pages, comparisons and reports. */
#define _GNU_SOURCE
#include <signal.h>
#include <stdio.h>
#include <stdlib.h>
#include <string.h>
#include <sys/mman.h>
#include <unistd.h>
#include "judge.h"

_Static_assert(sizeof(struct lk_addr) == 18 && sizeof(struct lk_endpoint) == 20 && sizeof(struct lk_prefix) == 20,
               "no padding");

/* ---- random values ---- */

static uint64_t case_seed, case_number, state;

/* SplitMix64. */
uint64_t any(void)
{
    uint64_t mixed = state += 0x9e3779b97f4a7c15;
    mixed = (mixed ^ mixed >> 30) * 0xbf58476d1ce4e5b9;
    mixed = (mixed ^ mixed >> 27) * 0x94d049bb133111eb;
    return mixed ^ mixed >> 31;
}

void begin_case(uint64_t seed, uint64_t number)
{
    case_seed = seed;
    case_number = number;
    state = seed;
    state = any() ^ number;
    any();
}

size_t below(size_t bound)
{
    return (size_t)(any() >> 16) % bound;
}

int one_in(size_t count)
{
    return below(count) == 0;
}

void fill(void *ptr, size_t len)
{
    uint8_t *octets = ptr;
    for (size_t i = 0; i < len; i += 8) {
        uint64_t eight = any();
        memcpy(octets + i, &eight, len - i < 8 ? len - i : 8);
    }
}

size_t any_len(size_t most)
{
    size_t bound = one_in(512) ? most + 1 : one_in(16) ? 1600 : 40;
    if (one_in(2048))
        return most;
    return below(bound <= most ? bound : most + 1);
}

size_t unused_len(void)
{
    switch (below(4)) {
    case 0:
        return SIZE_MAX;
    case 1:
        return LK_MAX_LEN + 1;
    case 2:
        return (size_t)LK_FAILURE(1 + below(13)) + below(100);
    default:
        return (size_t)-1 << (40 + below(24));
    }
}

size_t placed_len(size_t len)
{
    return len <= 65540 ? len : 0;
}

size_t any_cap(ptrdiff_t len)
{
    size_t pick = below(12);
    if (len <= 0)
        len = (ptrdiff_t)below(120);
    if (pick == 0)
        return one_in(8) ? unused_len() : below((size_t)len + 1);
    if (pick == 1 && len > 0)
        return (size_t)len - 1;
    return (size_t)len + (pick < 6 ? 0 : below(40));
}

uint8_t *any_out(size_t cap)
{
    static uint8_t out[MODEL_ROOM];
    size_t len = used_len(cap);
    fill(out, len < 400 ? len : 400);
    return out;
}

int any_offload(void)
{
    static const int offloads[] = {LK_GUESS, LK_OFFLOADED, LK_COMPLETE, LK_OFFLOADED, LK_COMPLETE, 3, -1, 257, 0x10002};
    return offloads[below(9)];
}

/* ---- memory ---- */

enum { SLOTS = 12, SLOT_LEN = MODEL_ROOM, GUARD_LEN = 0x10000 };

/* An argument, and what it was before the call. A room has no name. */
static struct {
    const char *name;
    const void *data;
    uint8_t *placed;
    size_t len;
} arguments[SLOTS];
static int argument_count;
static uint8_t *memory;
static struct call *calls, *current;

static void map_memory(void)
{
    size_t step = SLOT_LEN + GUARD_LEN;
    memory = mmap(0, SLOTS * step + GUARD_LEN, PROT_NONE, MAP_PRIVATE | MAP_ANONYMOUS, -1, 0);
    if (memory == MAP_FAILED) {
        perror("judge: mmap");
        exit(2);
    }
    for (int i = 0; i < SLOTS; i++)
        if (mprotect(memory + (size_t)i * step + GUARD_LEN, SLOT_LEN, PROT_READ | PROT_WRITE)) {
            perror("judge: mprotect");
            exit(2);
        }
}

static void *place(const char *name, const void *data, size_t len)
{
    int slot = argument_count++;
    uint8_t *front = memory + (size_t)slot * (SLOT_LEN + GUARD_LEN) + GUARD_LEN;
    uint8_t *placed = one_in(2) ? front : front + SLOT_LEN - len;
    if (slot >= SLOTS || len > SLOT_LEN) {
        fprintf(stderr, "judge: no place for an argument\n");
        exit(2);
    }
    if (len != 0)
        memcpy(placed, data, len);
    else if (one_in(2))
        placed = 0;
    arguments[slot].name = name;
    arguments[slot].data = data;
    arguments[slot].placed = placed;
    arguments[slot].len = len;
    return placed;
}

void *given(const char *name, const void *data, size_t len)
{
    return place(name, data, len);
}

void *room(const void *data, size_t len)
{
    return place(0, data, len);
}

/* ---- reports ---- */

static void print_hex(const char *name, const uint8_t *octets, size_t len)
{
    printf("  %s, %zu octets: ", name, len);
    for (size_t i = 0; i < len; i++)
        printf("%02x", octets[i]);
    printf("\n");
}

/* Prints the arguments, and ends the program. */
static void end_with_arguments(void)
{
    for (int i = 0; i < argument_count; i++)
        if (arguments[i].name)
            print_hex(arguments[i].name, arguments[i].placed, arguments[i].len);
        else
            printf("  room of %zu octets\n", arguments[i].len);
    printf("  seed %llu, case %llu\n", (unsigned long long)case_seed, (unsigned long long)case_number);
    fflush(stdout);
    _exit(1);
}

static const char *current_name(void)
{
    return current ? current->name : "no call";
}

/* The state of the library does not matter any more, so that this may print. */
static void crash(int number)
{
    printf("judge: %s: stopped by signal %d (%s)\n", current_name(), number, strsignal(number));
    end_with_arguments();
}

void catch_crashes(void)
{
    static const int signals[] = {SIGSEGV, SIGBUS, SIGILL, SIGFPE, SIGABRT, SIGALRM};
    for (size_t i = 0; i < sizeof signals / sizeof *signals; i++)
        signal(signals[i], crash);
    map_memory();
}

void begin_call(struct call *call)
{
    if (call->count++ == 0) {
        call->next = calls;
        calls = call;
    }
    current = call;
    argument_count = 0;
}

static int by_name(const void *a, const void *b)
{
    return strcmp((*(struct call *const *)a)->name, (*(struct call *const *)b)->name);
}

void print_counts(void)
{
    struct call *sorted[200];
    unsigned long sum = 0;
    size_t count = 0, kinds = 0;
    for (struct call *call = calls; call && count < 200; call = call->next) {
        sorted[count++] = call;
        sum += call->count;
    }
    qsort(sorted, count, sizeof *sorted, by_name);
    for (size_t i = 0; i < count; i++)
        if (i + 1 < count && strcmp(sorted[i]->name, sorted[i + 1]->name) == 0)
            sorted[i + 1]->count += sorted[i]->count;
        else
            sorted[kinds++] = sorted[i];
    printf("judge: %lu calls of %zu kinds:", sum, kinds);
    for (size_t i = 0; i < kinds; i++)
        printf(" %s %lu", sorted[i]->name, sorted[i]->count);
    printf("\n");
}

/* ---- comparisons ---- */

static void print_result(ptrdiff_t result)
{
    if (result < -1)
        printf("%td (%s)", result, model_failure_name(result));
    else
        printf("%td", result);
}

void same_number(const char *name, ptrdiff_t wanted, ptrdiff_t came)
{
    if (wanted == came)
        return;
    printf("judge: %s: %s: wanted ", current_name(), name);
    print_result(wanted);
    printf(", came ");
    print_result(came);
    printf("\n");
    end_with_arguments();
}

void end_call(ptrdiff_t wanted, ptrdiff_t came)
{
    for (int i = 0; i < argument_count; i++)
        if (arguments[i].name && arguments[i].len != 0)
            same_bytes(arguments[i].name, arguments[i].data, arguments[i].placed, arguments[i].len);
    same_number("the result", wanted, came);
}

void same_bytes(const char *name, const void *wanted, const void *came, size_t len)
{
    size_t at = 0;
    if (len == 0 || memcmp(wanted, came, len) == 0)
        return;
    while (((const uint8_t *)wanted)[at] == ((const uint8_t *)came)[at])
        at++;
    printf("judge: %s: %s: octet %zu differs\n", current_name(), name, at);
    print_hex("wanted", wanted, len);
    print_hex("came", came, len);
    end_with_arguments();
}

void same_text(const char *name, const char *wanted, const char *came)
{
    if (strcmp(wanted, came) == 0)
        return;
    printf("judge: %s: %s: wanted %s, came %s\n", current_name(), name, wanted, came);
    end_with_arguments();
}

/* A field of a struct: numbers are compared as such. */
struct field {
    const char *name;
    size_t offset;
    size_t len;
};

#define FIELD(type, name) {#name, offsetof(type, name), sizeof ((type *)0)->name}
#define FRAME(name) FIELD(struct lk_frame, name)
#define OPTIONS(name) FIELD(struct lk_tcp_options, name)

/* The number in a field of 1, 2, 4 or 8 bytes, on a little-endian machine. */
static ptrdiff_t number_in(const uint8_t *ptr, size_t len)
{
    uint64_t number = 0;
    memcpy(&number, ptr, len);
    return (ptrdiff_t)number;
}

static void same_fields(const struct field *fields, size_t count, const void *wanted, const void *came)
{
    for (size_t i = 0; i < count; i++) {
        const uint8_t *a = (const uint8_t *)wanted + fields[i].offset, *b = (const uint8_t *)came + fields[i].offset;
        if (fields[i].len > 8 || fields[i].len == 6)
            same_bytes(fields[i].name, a, b, fields[i].len);
        else
            same_number(fields[i].name, number_in(a, fields[i].len), number_in(b, fields[i].len));
    }
}

void same_frame(const struct lk_frame *wanted, const struct lk_frame *came)
{
    static const struct field fields[] = {
        FRAME(reason), FRAME(network), FRAME(transport), FRAME(rejected), FRAME(is_fragment), FRAME(network_offset),
        FRAME(transport_offset), FRAME(payload_offset), FRAME(payload_len), FRAME(payload_captured), FRAME(ipv4_checksum),
        FRAME(transport_checksum), FRAME(ethernet.src), FRAME(ethernet.dst), FRAME(ethernet.type),
        FRAME(src.addr.octets), FRAME(src.addr.version), FRAME(src.port), FRAME(dst.addr.octets),
        FRAME(dst.addr.version), FRAME(dst.port), FRAME(ip.ident), FRAME(ip.flow_label), FRAME(ip.fragment_offset),
        FRAME(ip.protocol), FRAME(ip.hop_limit), FRAME(ip.dscp), FRAME(ip.ecn), FRAME(ip.more_fragments),
        FRAME(ip.dont_fragment), FRAME(tcp.seq_number), FRAME(tcp.ack_number), FRAME(tcp.window_len),
        FRAME(tcp.urgent_at), FRAME(tcp.flags), FRAME(tcp.header_len), FRAME(arp.operation),
        FRAME(arp.src_hardware), FRAME(arp.dst_hardware), FRAME(icmp.type), FRAME(icmp.code), FRAME(icmp.word),
        FRAME(protocol),
    };
    same_fields(fields, sizeof fields / sizeof *fields, wanted, came);
}

void same_options(const struct lk_tcp_options *wanted, const struct lk_tcp_options *came)
{
    static const struct field fields[] = {
        OPTIONS(has_mss), OPTIONS(mss), OPTIONS(has_window_scale), OPTIONS(window_scale),
        OPTIONS(sack_permitted), OPTIONS(sack_range_count), OPTIONS(sack_ranges), OPTIONS(has_timestamp),
        OPTIONS(tsval), OPTIONS(tsecr),
    };
    same_fields(fields, sizeof fields / sizeof *fields, wanted, came);
}
