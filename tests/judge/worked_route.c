/* Worked calls of a router and its routes. */
#include "worked.h"

static const uint8_t src[6] = {2, 0, 0, 0, 0, 0x11}, dst[6] = {2, 0, 0, 0, 0, 0x12};

/* ---- a router ---- */

/* Frames that are not forwarded, with the first reason of the list. IPv4 and IPv6 begin at byte 14. */
static const struct {
    const struct octets *frame;
    size_t len;
    struct change changes[CHANGES];
    int rejection;
} not_forwarded[] = {
    {&query, 13, {{0, 0}}, LK_NOT_IP},
    {&query, 46, {{13, 0x06}}, LK_NOT_IP},
    {&query, 14, {{0, 0}}, LK_BAD_HEADER},
    {&query, 33, {{0, 0}}, LK_BAD_HEADER},
    {&query, 45, {{0, 0}}, LK_BAD_HEADER},
    {&query, 46, {{14, 0x65}, {22, 1}}, LK_BAD_HEADER},
    {&query, 46, {{14, 0x44}}, LK_BAD_HEADER},
    {&query, 46, {{17, 19}}, LK_BAD_HEADER},
    {&query, 46, {{25, 0xd5}, {22, 1}}, LK_WRONG_CHECKSUM},
    {&query, 46, {{22, 0x01}, {24, 0x5f}}, LK_HOP_LIMIT_TOO_LOW},
    {&query, 46, {{22, 0x00}, {24, 0x60}}, LK_HOP_LIMIT_TOO_LOW},
    {&router_solicit, 53, {{0, 0}}, LK_BAD_HEADER},
    {&router_solicit, 69, {{21, 0}}, LK_BAD_HEADER},
    {&router_solicit, 70, {{14, 0x40}}, LK_BAD_HEADER},
    {&router_solicit, 70, {{21, 1}}, LK_HOP_LIMIT_TOO_LOW},
    {&router_solicit, 70, {{21, 0}}, LK_HOP_LIMIT_TOO_LOW},
    {&query, 46, {{12, 0x86}}, LK_NOT_IP},
    {&query, 46, {{14, 0x65}}, LK_BAD_HEADER},
    {&query, 46, {{17, 0x21}}, LK_BAD_HEADER},
    {&query, 46, {{25, 0xd5}}, LK_WRONG_CHECKSUM},
    {&query, 46, {{22, 0x01}}, LK_WRONG_CHECKSUM},
    {&router_solicit, 70, {{14, 0x45}}, LK_BAD_HEADER},
    {&router_solicit, 70, {{19, 0x11}}, LK_BAD_HEADER},
    /* two faults in one frame */
    {&query, 46, {{13, 0x06}, {14, 0x65}}, LK_NOT_IP},
    {&query, 46, {{13, 0x06}, {22, 0x01}}, LK_NOT_IP},
    {&query, 46, {{14, 0x65}, {25, 0xd5}}, LK_BAD_HEADER},
    {&query, 46, {{14, 0x44}, {22, 0x00}}, LK_BAD_HEADER},
    {&query, 46, {{17, 0x21}, {22, 0x01}}, LK_BAD_HEADER},
    {&query, 46, {{22, 0x01}, {25, 0xd4}}, LK_WRONG_CHECKSUM},
    {&query, 46, {{22, 0x00}, {25, 0xd4}}, LK_WRONG_CHECKSUM},
    {&router_solicit, 70, {{13, 0xde}, {14, 0x45}}, LK_NOT_IP},
    {&router_solicit, 70, {{13, 0xde}, {21, 0x01}}, LK_NOT_IP},
    {&router_solicit, 70, {{14, 0x45}, {21, 0x01}}, LK_BAD_HEADER},
    {&router_solicit, 70, {{19, 0x11}, {21, 0x00}}, LK_BAD_HEADER},
};

/* The frame becomes these bytes. */
static void forwards(int line, struct octets frame, const struct octets *forwarded)
{
    check(__FILE__, line, 0, both_forward(frame.at, frame.len, src, dst) == 0);
    check(__FILE__, line, 1, memcmp(frame.at, forwarded->at, frame.len) == 0);
}

/* Each hop adds 0x0100 to the checksum of the IPv4 header. That of UDP is left to the device. */
static void forward_until_it_expires(void)
{
    struct octets frame = changed(changed(query, 40, 0x84), 41, 0x21), expected = frame;
    memcpy(expected.at, dst, 6);
    memcpy(expected.at + 6, src, 6);
    for (unsigned hop_limit = 63; hop_limit > 0; hop_limit--) {
        expected.at[22]--;
        expected.at[24]++;
        forwards(__LINE__, frame, &expected);
        frame = expected;
    }
    CHECK(frame.at[22] == 1 && both_forward(frame.at, frame.len, src, dst) == LK_HOP_LIMIT_TOO_LOW);
    CHECK(memcmp(frame.at, expected.at, frame.len) == 0);
}

static void forward(void)
{
    struct octets frame = router_solicit, expected;
    forwards(__LINE__, query, &query_forwarded);
    forwards(__LINE__, fragment_of_options, &fragment_of_options_forwarded);
    for (unsigned hop_limit = 254; hop_limit > 0; hop_limit--) {
        expected = changed(router_solicit, 21, (uint8_t)hop_limit);
        memcpy(expected.at, dst, 6);
        memcpy(expected.at + 6, src, 6);
        forwards(__LINE__, frame, &expected);
        frame = expected;
    }
    forward_until_it_expires();
    for (size_t i = 0; i < sizeof not_forwarded / sizeof not_forwarded[0]; i++) {
        frame = expected = cut(not_forwarded[i].frame, not_forwarded[i].len, not_forwarded[i].changes);
        CHECK_ROW(i, both_forward(frame.at, frame.len, src, dst) == not_forwarded[i].rejection);
        CHECK_ROW(i, memcmp(frame.at, expected.at, frame.len) == 0);
    }
}

/* ---- the MSS clamp ---- */

/* `before`: changes of the frame. `after`: what the call changes then; none: it returns 0. */
static const struct {
    const struct octets *frame;
    size_t len;
    struct change before[CHANGES];
    uint16_t mss;
    struct change after[CHANGES];
} clamped[] = {
    {&syn, 74, {{0, 0}}, 1260, {{50, 0xd9}, {51, 0x85}, {56, 0x04}, {57, 0xec}}},
    {&syn, 74, {{0, 0}}, 1459, {{51, 0xbe}, {57, 0xb3}}},
    {&syn, 74, {{0, 0}}, 0, {{50, 0xde}, {51, 0x71}, {56, 0}, {57, 0}}},
    {&syn, 74, {{51, 0xbc}}, 1459, {{51, 0xbd}, {57, 0xb3}}}, /* a wrong checksum stays wrong */
    {&syn, 74, {{50, 0x84}, {51, 0x32}}, 1260, {{56, 0x04}, {57, 0xec}}}, /* the sum of the pseudo-header */
    {&syn, 74, {{50, 0x84}, {51, 0x32}, {48, 0x4f}, {49, 0x7c}}, 1260, /* this sum, which is valid */
     {{50, 0x84}, {51, 0xfa}, {56, 0x04}, {57, 0xec}}},
    {&syn, 74, {{0, 0}}, 1300, {{50, 0xd9}, {51, 0x5d}, {56, 0x05}, {57, 0x14}}},
    {&syn, 74, {{47, 0x12}}, 1300, {{50, 0xd9}, {51, 0x5d}, {56, 0x05}, {57, 0x14}}}, /* SYN and ACK */
    {&syn, 74, {{0, 0}}, 1460, {{0, 0}}},
    {&syn, 74, {{0, 0}}, 65535, {{0, 0}}},
    {&syn, 74, {{47, 0x10}}, 1260, {{0, 0}}},             /* no SYN */
    {&syn, 74, {{47, 0x03}}, 1260, {{0, 0}}},             /* SYN and FIN */
    {&syn, 74, {{54, 1}, {55, 1}}, 1260, {{0, 0}}},       /* an option of kind 5, which is cut off */
    {&syn, 74, {{54, 0xfd}}, 1260, {{0, 0}}},             /* no such option */
    {&syn, 74, {{54, 0}}, 1260, {{0, 0}}},                /* the end of the options */
    {&syn, 74, {{20, 0x20}, {24, 0x82}}, 1260, {{0, 0}}}, /* a fragment */
    {&syn, 74, {{25, 0xfb}}, 1260, {{0, 0}}},             /* a wrong checksum of the IPv4 header */
    {&syn, 74, {{23, 0x11}, {25, 0xf1}}, 1260, {{0, 0}}}, /* UDP */
    {&syn, 73, {{0, 0}}, 1260, {{0, 0}}},
    {&query, 46, {{0, 0}}, 0, {{0, 0}}},
    {&syn_ack_of_1440, 82, {{0, 0}}, 1220, {{70, 0x1a}, {71, 0xa3}, {77, 0x04}, {78, 0xc4}}},
    {&syn_ack_of_1440, 82, {{70, 0x5b}, {71, 0x97}}, 1220, {{77, 0x04}, {78, 0xc4}}}, /* the sum of the pseudo-header */
    {&syn_ack_of_1440, 82, {{0, 0}}, 1440, {{0, 0}}},
    {&syn_ack_of_1440, 82, {{20, 0}}, 1220, {{0, 0}}}, /* an extension header */
    {&syn_ack_of_1440, 81, {{0, 0}}, 1220, {{0, 0}}},
};

static void clamp_mss(void)
{
    for (size_t i = 0; i < sizeof clamped / sizeof clamped[0]; i++) {
        struct octets frame = cut(clamped[i].frame, clamped[i].len, clamped[i].before);
        struct octets expected = cut(&frame, frame.len, clamped[i].after);
        CHECK_ROW(i, both_clamp_mss(frame.at, frame.len, clamped[i].mss) == (clamped[i].after[0].at != 0));
        CHECK_ROW(i, memcmp(frame.at, expected.at, frame.len) == 0);
        CHECK_ROW(i, both_clamp_mss(frame.at, frame.len, clamped[i].mss) == 0);
    }
}

/* A SYN whose field has the sum of the pseudo-header, with a limit of 1260 and what the caller says of the checksum. */
static const struct {
    struct change before[CHANGES];
    int offload;
    struct change after[CHANGES];
} told[] = {
    {{{50, 0x84}, {51, 0x32}, {48, 0x4f}, {49, 0x7c}}, LK_OFFLOADED, {{56, 0x04}, {57, 0xec}}},
    {{{50, 0x84}, {51, 0x32}, {48, 0x4f}, {49, 0x7c}}, LK_COMPLETE, {{51, 0xfa}, {56, 0x04}, {57, 0xec}}},
    {{{50, 0x84}, {51, 0x32}}, LK_COMPLETE, {{51, 0xfa}, {56, 0x04}, {57, 0xec}}},
    {{{50, 0x84}, {51, 0x32}}, LK_GUESS, {{56, 0x04}, {57, 0xec}}},
    {{{50, 0x84}, {51, 0x32}}, 3, {{56, 0x04}, {57, 0xec}}},
    {{{47, 0x10}}, LK_OFFLOADED, {{0, 0}}}, /* no SYN */
};

static void clamp_mss_as(void)
{
    for (size_t i = 0; i < sizeof told / sizeof told[0]; i++) {
        struct octets frame = cut(&syn, syn.len, told[i].before), expected = cut(&frame, frame.len, told[i].after);
        CHECK_ROW(i, both_clamp_mss_as(frame.at, frame.len, 1260, told[i].offload) == (told[i].after[0].at != 0));
        CHECK_ROW(i, memcmp(frame.at, expected.at, frame.len) == 0);
    }
}

/* ---- routes ---- */

/* Blocks in blocks, over both versions. The third one is the first again. */
static const struct lk_route routes[] = {
    {{{{10, 0, 0, 0}, 4}, 8}, {{192, 0, 2, 1}, 4}, 1},
    {{{{10, 1, 0, 0}, 4}, 16}, {{0}, 0}, 2},
    {{{{10, 9, 9, 9}, 4}, 8}, {{192, 0, 2, 3}, 4}, 3},
    {{{{10, 1, 2, 3}, 4}, 32}, {{192, 0, 2, 4}, 4}, 4},
    {{{{0}, 6}, 0}, {{0xfe, 0x80, 0, 0, 0, 0, 0, 0, 0, 0, 0, 0, 0, 0, 0, 1}, 6}, 65535},
    {{{{0x20, 0x01, 0x0d, 0xb8}, 6}, 33}, {{0}, 0}, 6},
    {{{{127, 0, 0, 0}, 4}, 8}, {{0}, 0}, 1},
};
enum { ROUTES = sizeof routes / sizeof routes[0] };

static const struct {
    struct lk_addr addr;
    ptrdiff_t route;
} choices[] = {
    {{{10, 0, 0, 0}, 4}, 0},
    {{{10, 255, 255, 255}, 4}, 0},
    {{{11, 0, 0, 0}, 4}, -1},
    {{{9, 255, 255, 255}, 4}, -1},
    {{{10, 1, 0, 0}, 4}, 1},
    {{{10, 1, 255, 255}, 4}, 1},
    {{{10, 2, 0, 0}, 4}, 0},
    {{{10, 1, 2, 3}, 4}, 3},
    {{{10, 1, 2, 4}, 4}, 1},
    {{{0}, 6}, 4},
    {{{0x20, 0x01, 0x0d, 0xb8, 0x7f, 0xff}, 6}, 5},
    {{{0x20, 0x01, 0x0d, 0xb8, 0x80}, 6}, 4},
    {{{10, 1, 2, 3}, 0}, -1},
    {{{10, 1, 2, 3}, 5}, -1},
};

static struct lk_route_node nodes[ROUTES];

static void choose(void)
{
    CHECK(both_index_routes(routes, 0, nodes, ROUTES) == 0);
    CHECK(both_index_routes(routes, LK_MAX_LEN + 1, nodes, ROUTES) == LK_NO_ROOM);
    CHECK(both_index_routes(routes, (size_t)LK_NO_ROOM, nodes, ROUTES) == LK_NO_ROOM);
    CHECK(both_index_routes(routes, 0, nodes, (size_t)LK_NO_ROOM) == LK_NO_ROOM);
    CHECK(both_index_routes(routes, ROUTES, nodes, ROUTES) == ROUTES);
    for (size_t i = 0; i < sizeof choices / sizeof choices[0]; i++)
        CHECK_ROW(i, both_choose_route(nodes, ROUTES, &choices[i].addr) == choices[i].route);
    CHECK(both_choose_route(0, 0, &choices[0].addr) == -1);
    CHECK(both_choose_route(nodes, LK_MAX_LEN + 1, &choices[0].addr) == -1);
    CHECK(both_choose_route(nodes, (size_t)LK_NO_ROOM, &choices[0].addr) == -1);
}

/* ---- tables of routes ---- */

/* Of routes, and more than this. */
enum { CELLS = LK_ROUTE_TABLE_LEN(ROUTES), MORE = CELLS + 20 };
static uint64_t cells[MORE];

static void make_tables(void)
{
    static const struct {
        size_t count, cell_count;
        ptrdiff_t result;
    } made[] = {
        {ROUTES, 40, 40},
        {ROUTES, 41, 40},
        {ROUTES, MORE, 40},
        {ROUTES, 39, LK_NO_ROOM},
        {ROUTES, 0, LK_NO_ROOM},
        {1, 10, 10},
        {0, 5, 5},
        {0, 4, LK_NO_ROOM},
        {(size_t)1 << 26, (size_t)1 << 32, LK_NO_ROOM},
        {((size_t)1 << 26) + 1, LK_MAX_LEN, LK_NO_ROOM},
        {LK_MAX_LEN + 1, LK_MAX_LEN, LK_NO_ROOM},
        {SIZE_MAX, LK_MAX_LEN, LK_NO_ROOM},
        {(size_t)LK_NO_ROOM, 40, LK_NO_ROOM},
        {0, LK_MAX_LEN + 1, LK_NO_ROOM},
        {ROUTES, (size_t)LK_NO_ROOM, LK_NO_ROOM},
    };
    CHECK(LK_ROUTE_TABLE_LEN(0) == 5 && LK_ROUTE_TABLE_LEN(ROUTES) == 40);
    CHECK(both_index_routes(routes, ROUTES, nodes, ROUTES) == ROUTES);
    for (size_t i = 0; i < sizeof made / sizeof made[0]; i++)
        CHECK_ROW(i, both_make_route_table(nodes, made[i].count, cells, made[i].cell_count) == made[i].result);
}

static void choose_by_table(void)
{
    static const size_t counts[] = {CELLS, CELLS + 1, MORE, CELLS - 1, 5, 1, 0, LK_MAX_LEN + 1, (size_t)LK_NO_ROOM};
    CHECK(both_index_routes(routes, ROUTES, nodes, ROUTES) == ROUTES);
    CHECK(both_make_route_table(nodes, ROUTES, cells, CELLS) == CELLS);
    for (size_t i = 0; i < sizeof choices / sizeof choices[0]; i++)
        for (size_t j = 0; j < sizeof counts / sizeof counts[0]; j++)
            CHECK_ROW(i, both_choose_route_by_table(nodes, ROUTES, cells, counts[j], &choices[i].addr) ==
                             choices[i].route);
    CHECK(both_choose_route_by_table(nodes, ROUTES, 0, 0, &choices[0].addr) == 0);
    CHECK(both_choose_route_by_table(0, 0, 0, 0, &choices[0].addr) == -1);
    CHECK(both_choose_route_by_table(nodes, LK_MAX_LEN + 1, 0, 0, &choices[0].addr) == -1);
    CHECK(both_make_route_table(0, 0, cells, CELLS) == LK_ROUTE_TABLE_LEN(0));
    CHECK(both_choose_route_by_table(0, 0, cells, LK_ROUTE_TABLE_LEN(0), &choices[0].addr) == -1);
}

/* A default route, and 63 hosts of 198.51.100.0/25: each second address from .1 on. So 64 ranges of one address begin
 * in one part of the table. */
static void choose_among_hosts(void)
{
    enum { COUNT = 64, HOST_CELLS = LK_ROUTE_TABLE_LEN(COUNT) };
    static struct lk_route hosts[COUNT] = {{{{{0}, 4}, 0}, {{0}, 0}, 0}};
    static struct lk_route_node host_nodes[COUNT];
    static uint64_t host_cells[HOST_CELLS];
    struct lk_addr addr = {{198, 51, 100}, 4};
    for (size_t i = 1; i < COUNT; i++) {
        addr.octets[3] = (uint8_t)(2 * i - 1);
        hosts[i].prefix = (struct lk_prefix){addr, 32};
    }
    CHECK(both_index_routes(hosts, COUNT, host_nodes, COUNT) == COUNT);
    CHECK(both_make_route_table(host_nodes, COUNT, host_cells, HOST_CELLS) == HOST_CELLS);
    for (int i = 0; i < 256; i++) {
        ptrdiff_t route = i < 126 && i % 2 ? (i + 1) / 2 : 0;
        addr.octets[3] = (uint8_t)i;
        CHECK_ROW(i, both_choose_route_by_table(host_nodes, COUNT, host_cells, HOST_CELLS, &addr) == route);
    }
}

static const struct {
    struct lk_addr src;
    uint16_t interface;
    int rejection;
} sources[] = {
    {{{10, 0, 0, 1}, 4}, 1, LK_NOT_REJECTED},
    {{{10, 0, 0, 1}, 4}, 3, LK_OTHER_INTERFACE},
    {{{10, 1, 2, 3}, 4}, 4, LK_NOT_REJECTED},
    {{{10, 1, 2, 3}, 4}, 2, LK_OTHER_INTERFACE},
    {{{11, 0, 0, 1}, 4}, 1, LK_NO_ROUTE_TO_SOURCE},
    {{{0x20, 0x01}, 6}, 65535, LK_NOT_REJECTED},
    {{{127, 0, 0, 1}, 4}, 1, LK_MARTIAN},
    {{{127, 0, 0, 1}, 4}, 2, LK_MARTIAN},
    {{{0, 255, 255, 255}, 4}, 1, LK_MARTIAN},
    {{{224, 0, 0, 1}, 4}, 1, LK_MARTIAN},
    {{{255, 255, 255, 255}, 4}, 1, LK_MARTIAN},
    {{{240, 0, 0, 1}, 4}, 1, LK_MARTIAN},
    {{{0}, 6}, 65535, LK_MARTIAN},
    {{{0, 0, 0, 0, 0, 0, 0, 0, 0, 0, 0, 0, 0, 0, 0, 1}, 6}, 65535, LK_MARTIAN},
    {{{0, 0, 0, 0, 0, 0, 0, 0, 0, 0, 0, 0, 0, 0, 0, 2}, 6}, 65535, LK_NOT_REJECTED},
    {{{0, 0, 0, 0, 0, 0, 0, 0, 0, 0, 0xff, 0xff, 192, 0, 2, 1}, 6}, 65535, LK_MARTIAN},
    {{{0xff, 0x02}, 6}, 65535, LK_MARTIAN},
    {{{0xfe, 0x80}, 6}, 65535, LK_NOT_REJECTED},
    {{{10, 0, 0, 1}, 0}, 1, LK_MARTIAN},
};

static void check_sources(void)
{
    CHECK(both_index_routes(routes, ROUTES, nodes, ROUTES) == ROUTES);
    CHECK(both_make_route_table(nodes, ROUTES, cells, CELLS) == CELLS);
    for (size_t i = 0; i < sizeof sources / sizeof sources[0]; i++) {
        const struct lk_addr *src = &sources[i].src;
        uint16_t interface = sources[i].interface;
        CHECK_ROW(i, both_check_source(routes, ROUTES, nodes, ROUTES, src, interface) == sources[i].rejection);
        CHECK_ROW(i, both_check_source_by_table(routes, ROUTES, nodes, ROUTES, cells, CELLS, src, interface) ==
                         sources[i].rejection);
        CHECK_ROW(i, both_check_source_by_table(routes, ROUTES, nodes, ROUTES, cells, MORE, src, interface) ==
                         sources[i].rejection);
        CHECK_ROW(i, both_check_source_by_table(routes, ROUTES, nodes, ROUTES, cells, CELLS - 1, src, interface) ==
                         sources[i].rejection);
    }
    CHECK(both_check_source(0, 0, 0, 0, &sources[0].src, 1) == LK_NO_ROUTE_TO_SOURCE);
    CHECK(both_check_source(routes, ROUTES, nodes, LK_MAX_LEN + 1, &sources[0].src, 1) == LK_NO_ROUTE_TO_SOURCE);
    CHECK(both_check_source_by_table(0, 0, 0, 0, 0, 0, &sources[0].src, 1) == LK_NO_ROUTE_TO_SOURCE);
    CHECK(both_check_source_by_table(routes, ROUTES, nodes, LK_MAX_LEN + 1, 0, 0, &sources[0].src, 1) == LK_NO_ROUTE_TO_SOURCE);
}

/* ---- routes of Linux ---- */

/* Routes that Linux 6 was given. Of the two for 10.1.0.0/16 the first has the lower metric. */
static const struct {
    const char *block, *next_hop;
    uint16_t interface;
} given_routes[] = {
    {"192.0.2.0/24", 0, 1},
    {"198.51.100.0/24", 0, 2},
    {"10.1.2.0/24", 0, 2},
    {"0.0.0.0/0", "192.0.2.1", 1},
    {"10.0.0.0/8", "192.0.2.2", 1},
    {"10.1.0.0/16", "198.51.100.2", 2},
    {"10.1.2.128/25", "192.0.2.3", 1},
    {"10.1.2.3/32", "192.0.2.4", 1},
    {"10.1.0.0/16", "192.0.2.9", 1},
    {"::/0", "2001:db8:ff::1", 1},
    {"2001:db8::/32", "2001:db8:fe::2", 2},
    {"2001:db8:1::/48", "2001:db8:ff::3", 1},
    {"2001:db8:1::8/125", 0, 2},
};
enum { GIVEN = sizeof given_routes / sizeof *given_routes, IPV4_GIVEN = 9, GIVEN_CELLS = LK_ROUTE_TABLE_LEN(GIVEN) };

/* An address and the place of its route, as `ip route get` found it. */
static const struct {
    const char *addr;
    ptrdiff_t route;
} found_routes[] = {
    {"8.8.8.8", 3}, {"9.255.255.255", 3}, {"10.0.0.0", 4}, {"10.255.255.255", 4}, {"11.0.0.0", 3}, {"10.1.0.0", 5},
    {"10.1.255.255", 5}, {"10.2.0.0", 4}, {"10.1.2.0", 2}, {"10.1.2.127", 2}, {"10.1.2.128", 6}, {"10.1.2.255", 6},
    {"10.1.2.3", 7}, {"10.1.2.2", 2}, {"10.1.2.4", 2}, {"10.1.3.3", 5}, {"2001:db7:ffff::1", 9}, {"2001:db8::1", 10},
    {"2001:db8:0:ffff::1", 10}, {"2001:db8:1::1", 11}, {"2001:db8:1::7", 11}, {"2001:db8:1::8", 12},
    {"2001:db8:1::f", 12}, {"2001:db8:1::10", 11}, {"2001:db8:2::", 10}, {"2001:db9::", 9},
};

/* A source address, and whether it may come in by an interface. */
static const struct {
    const char *src;
    uint16_t interface;
    int rejection;
} given_sources[] = {
    {"10.1.2.3", 1, LK_NOT_REJECTED}, {"10.1.2.4", 2, LK_NOT_REJECTED}, {"2001:db8:1::8", 2, LK_NOT_REJECTED},
    {"10.1.2.3", 2, LK_OTHER_INTERFACE}, {"198.51.100.7", 1, LK_OTHER_INTERFACE},
    {"2001:db8:1::7", 2, LK_OTHER_INTERFACE}, {"169.254.1.1", 1, LK_NOT_REJECTED}, {"fe80::1", 1, LK_NOT_REJECTED},
    {"0.0.0.0", 1, LK_MARTIAN}, {"0.1.2.3", 1, LK_MARTIAN}, {"127.0.0.1", 1, LK_MARTIAN}, {"224.0.0.1", 2, LK_MARTIAN},
    {"240.0.0.1", 1, LK_MARTIAN}, {"255.255.255.255", 1, LK_MARTIAN}, {"::", 1, LK_MARTIAN}, {"::1", 1, LK_MARTIAN},
    {"ff02::1", 2, LK_MARTIAN}, {"::ffff:192.0.2.1", 1, LK_MARTIAN},
};

static struct lk_route linux_routes[GIVEN];
static struct lk_route_node linux_nodes[GIVEN];
static uint64_t linux_cells[GIVEN_CELLS];

/* Makes the index and the table of `count` routes of Linux. */
static void index_linux(size_t first, size_t len)
{
    memset(linux_routes, 0, sizeof linux_routes);
    for (size_t i = 0; i < len; i++) {
        const char *block = given_routes[first + i].block, *next_hop = given_routes[first + i].next_hop;
        CHECK_ROW(i, both_parse_prefix(block, strlen(block), &linux_routes[i].prefix) == 1);
        if (next_hop)
            linux_routes[i].next_hop = addr(next_hop);
        linux_routes[i].interface = given_routes[first + i].interface;
    }
    CHECK(both_index_routes(linux_routes, len, linux_nodes, len) == (ptrdiff_t)len);
    CHECK(both_make_route_table(linux_nodes, len, linux_cells, GIVEN_CELLS) == (ptrdiff_t)LK_ROUTE_TABLE_LEN(len));
}

/* The route, by the index, by the table and without it. */
static int leads(size_t len, const char *text, ptrdiff_t route)
{
    const struct lk_addr to = addr(text);
    return both_choose_route(linux_nodes, len, &to) == route &&
           both_choose_route_by_table(linux_nodes, len, linux_cells, GIVEN_CELLS, &to) == route &&
           both_choose_route_by_table(linux_nodes, len, 0, 0, &to) == route;
}

static void choose_as_linux(void)
{
    index_linux(0, GIVEN);
    for (size_t i = 0; i < sizeof found_routes / sizeof *found_routes; i++)
        CHECK_ROW(i, leads(GIVEN, found_routes[i].addr, found_routes[i].route));
    for (size_t i = 0; i < sizeof given_sources / sizeof *given_sources; i++) {
        const struct lk_addr src = addr(given_sources[i].src);
        uint16_t interface = given_sources[i].interface;
        CHECK_ROW(i, both_check_source(linux_routes, GIVEN, linux_nodes, GIVEN, &src, interface) ==
                         given_sources[i].rejection);
        CHECK_ROW(i, both_check_source_by_table(linux_routes, GIVEN, linux_nodes, GIVEN, linux_cells, GIVEN_CELLS, &src,
                                                interface) == given_sources[i].rejection);
    }
}

/* Routes of one version, and no routes. */
static void choose_none(void)
{
    index_linux(0, IPV4_GIVEN);
    CHECK(leads(IPV4_GIVEN, "10.1.2.3", 7) && leads(IPV4_GIVEN, "2001:db8::1", -1));
    index_linux(IPV4_GIVEN, GIVEN - IPV4_GIVEN);
    CHECK(leads(GIVEN - IPV4_GIVEN, "10.1.2.3", -1) && leads(GIVEN - IPV4_GIVEN, "2001:db8::1", 1));
    index_linux(0, 0);
    CHECK(leads(0, "10.1.2.3", -1));
}

void worked_route(void)
{
    choose_as_linux();
    choose_none();
    forward();
    clamp_mss();
    clamp_mss_as();
    choose();
    make_tables();
    choose_by_table();
    choose_among_hosts();
    check_sources();
}
