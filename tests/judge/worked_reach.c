/* Worked calls of lk_shrink_reach. The least reach of a place is known without the hash: all endpoints are found by it, and
 * with a lower one some endpoint is not. */
#include "worked.h"

enum { FIRST_PORT = 1024, PORTS = 1000, COUNT = LK_MAPPINGS(PORTS), END = 300000 };

static const struct lk_nat nat = {{0x0706050403020100, 0x0f0e0d0c0b0a0908}, END, 7440000, 240000, 60000,
                                  {203, 0, 113, 9}, FIRST_PORT, 0};
static struct lk_mapping mappings[COUNT], kept[COUNT];

/* The outside port of 192.168.0.2 and this port, which is none outside. 0: no port is free. */
static unsigned port_of(unsigned port, uint64_t now)
{
    struct lk_frame headers;
    uint8_t frame[64];
    ptrdiff_t len;
    memset(&headers, 0, sizeof headers);
    headers.src = (struct lk_endpoint){{{192, 168, 0, 2}, 4}, (uint16_t)port};
    headers.dst = (struct lk_endpoint){{{198, 51, 100, 1}, 4}, 53};
    headers.ip.hop_limit = 64;
    len = lk_emit_udp_frame(&headers, 0, 0, frame, sizeof frame);
    CHECK(len > 0);
    if (lk_translate_out(&nat, mappings, COUNT, now, frame, (size_t)len) != LK_NOT_REJECTED)
        return 0;
    return frame[34] * 256u + frame[35];
}

static unsigned inside_port(size_t i)
{
    return 20000 + (unsigned)i;
}

/* All ports are taken, and later two of three are free. */
static void take_ports(void)
{
    memset(mappings, 0, sizeof mappings);
    for (size_t i = 0; i < PORTS; i++)
        CHECK_ROW(i, port_of(inside_port(i), 0) != 0);
    CHECK(port_of(inside_port(PORTS), 0) == 0);
    for (size_t i = 0; i < PORTS; i++)
        if (i % 3 != 0)
            mappings[i].expires = 1;
}

/* Whether each live mapping is found at the time 1. If not, there are other mappings. */
static int are_found(void)
{
    for (unsigned i = 0; i < PORTS; i++)
        if (kept[i].expires > 1 && port_of(kept[i].inside_port, 1) != FIRST_PORT + i)
            return 0;
    return 1;
}

static unsigned reaches(void)
{
    unsigned sum = 0;
    for (size_t i = 0; i < COUNT; i++)
        sum += mappings[i].reach;
    return sum;
}

static void find_least(void)
{
    unsigned before, lowered = 0;
    take_ports();
    before = reaches();
    both_shrink_reach(&nat, mappings, COUNT, 1);
    CHECK(reaches() < before);
    memcpy(kept, mappings, sizeof kept);
    CHECK(are_found());
    memcpy(mappings, kept, sizeof kept);
    for (size_t i = 0; i < COUNT; i++) {
        if (kept[i].reach == 0)
            continue;
        mappings[i].reach--;
        CHECK_ROW(i, !are_found());
        memcpy(mappings, kept, sizeof kept);
        lowered++;
    }
    CHECK(lowered > 0);
    both_shrink_reach(&nat, mappings, COUNT, END - 1);
    CHECK(memcmp(mappings, kept, sizeof kept) == 0);
    both_shrink_reach(&nat, mappings, COUNT, END);
    CHECK(reaches() == 0);
}

/* A table without a port, and one that is too long. */
static void leave_others(void)
{
    both_shrink_reach(&nat, 0, 0, 0);
    take_ports();
    memcpy(kept, mappings, sizeof kept);
    both_shrink_reach(&nat, mappings, LK_MAX_LEN + 1, END);
    both_shrink_reach(&nat, mappings, (size_t)LK_NO_ROOM, END);
    CHECK(memcmp(mappings, kept, sizeof kept) == 0);
}

void worked_reach(void)
{
    find_least();
    leave_others();
}
