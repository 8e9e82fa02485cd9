/* What the worked calls share. */
#include <stdio.h>
#include <stdlib.h>
#include "worked.h"

#define FRAME(name, hex) struct octets name;
#include "worked_frames.inc"
#undef FRAME

uint8_t out[ROOM];
const struct octets nothing;

void check(const char *file, int line, size_t row, int holds)
{
    if (holds)
        return;
    printf("judge: %s:%d, row %zu: the library and its model have another result\n", file, line, row);
    exit(1);
}

struct octets octets(const char *hex)
{
    struct octets found = {{0}, strlen(hex) / 2};
    for (size_t i = 0; i < found.len; i++) {
        const char digits[] = {hex[2 * i], hex[2 * i + 1], 0};
        found.at[i] = (uint8_t)strtoul(digits, 0, 16);
    }
    return found;
}

struct octets changed(struct octets octets, size_t at, uint8_t octet)
{
    octets.at[at] = octet;
    return octets;
}

struct octets cut(const struct octets *octets, size_t len, const struct change changes[CHANGES])
{
    struct octets found = *octets;
    found.len = len;
    for (int i = 0; i < CHANGES && (changes[i].at || changes[i].octet); i++)
        found.at[changes[i].at] = changes[i].octet;
    return found;
}

struct lk_addr addr(const char *text)
{
    struct lk_addr addr;
    memset(&addr, OLD, sizeof addr);
    CHECK(both_parse_addr(text, strlen(text), &addr) == 1);
    return addr;
}

struct lk_endpoint endpoint(const char *text)
{
    struct lk_endpoint endpoint;
    memset(&endpoint, OLD, sizeof endpoint);
    CHECK(both_parse_endpoint(text, strlen(text), &endpoint) == 1);
    return endpoint;
}

uint8_t *clear(void)
{
    return memset(out, OLD, sizeof out);
}

int holds(const struct octets *octets, ptrdiff_t written)
{
    for (size_t i = octets->len; i < ROOM; i++)
        if (out[i] != OLD)
            return 0;
    return written == (ptrdiff_t)octets->len && memcmp(out, octets->at, octets->len) == 0;
}

void make_worked_calls(const char *folder)
{
    begin_case(0, 0);
#define FRAME(name, hex) name = octets(hex);
#include "worked_frames.inc"
#undef FRAME
    worked_read();
    worked_extended();
    worked_captured();
    worked_ports();
    worked_link();
    worked_options();
    worked_write();
    worked_failures();
    worked_values();
    worked_route();
    worked_nat();
    worked_mappings();
    worked_rows();
    worked_reach();
    worked_icmp();
    worked_mld();
    worked_edit();
    worked_fragment();
    worked_reassembly();
    worked_hosts(folder);
    worked_problems();
    worked_summary();
}
