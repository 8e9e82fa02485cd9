/* What a router, a NAT and a host are timed on. */
#include "inputs.h"

/* Tables of routes, and destinations. */
enum { MOST_ROUTES = 1000000, DESTINATIONS = 1 << 16 };
static struct lk_route routes[MOST_ROUTES];
static struct lk_route_node nodes[MOST_ROUTES];
static uint64_t cells[LK_ROUTE_TABLE_LEN(MOST_ROUTES)];
static struct lk_addr destinations[DESTINATIONS];

/* The index of so many routes, and its table. */
static void index_routes(size_t count)
{
    lk_index_routes(routes, count, nodes, count);
    lk_make_route_table(nodes, count, cells, LK_ROUTE_TABLE_LEN(count));
}

static uint8_t random_octet(uint32_t *random)
{
    *random = *random * 1664525 + 1013904223;
    return (uint8_t)(*random >> 24);
}

static struct lk_addr random_ipv4(uint32_t *random)
{
    struct lk_addr addr = {.version = 4};
    for (int i = 0; i < 4; i++)
        addr.octets[i] = random_octet(random);
    addr.octets[0] = (uint8_t)(1 + addr.octets[0] % 223);
    return addr;
}

/* An address in 2001:db8::/32. */
static struct lk_addr random_ipv6(uint32_t *random)
{
    struct lk_addr addr = {{0x20, 0x01, 0x0d, 0xb8}, 6};
    for (int i = 4; i < 16; i++)
        addr.octets[i] = random_octet(random);
    return addr;
}

/* With the prefix lengths of IPv4 routes in the Internet, roughly. Half of the destinations are in a route. */
static void prepare_routes(const struct row *row)
{
    static const uint8_t lens[16] = {24, 24, 24, 24, 24, 24, 24, 24, 24, 23, 23, 22, 22, 21, 20, 16};
    uint32_t random = 1;
    for (size_t i = 0; i < row->size; i++) {
        struct lk_addr addr = random_ipv4(&random);
        routes[i] = (struct lk_route){.prefix = {addr, lens[random >> 20 & 15]}};
    }
    for (size_t i = 0; i < DESTINATIONS; i++) {
        destinations[i] = random_ipv4(&random);
        if (i % 2)
            destinations[i] = routes[random % row->size].prefix.addr;
    }
    index_routes(row->size);
}

/* In the order of an index. */
static void prepare_ordered_routes(const struct row *row)
{
    for (size_t i = 0; i < row->size; i++)
        routes[i] = (struct lk_route){.prefix = {{{10, (uint8_t)(i >> 16), (uint8_t)(i >> 8), (uint8_t)i}, 4}, 32}};
}

/* As of a small router: a default route, and prefixes of its own. Half of the destinations are in one of these. The
 * interfaces are two. */
static void prepare_few_routes(const struct row *row)
{
    uint32_t random = 1;
    routes[0] = (struct lk_route){.prefix = {.addr = {.version = 4}}};
    for (size_t i = 1; i < row->size; i++)
        routes[i] = (struct lk_route){.prefix = {random_ipv4(&random), i % 2 ? 16 : 24}, .interface = i % 2};
    for (size_t i = 0; i < DESTINATIONS; i++) {
        destinations[i] = random_ipv4(&random);
        if (i % 2)
            destinations[i] = routes[1 + random % (row->size - 1)].prefix.addr;
    }
    index_routes(row->size);
}

/* The same with IPv6: the last half of the routes are a default route and prefixes of 2001:db8::/32. */
static void prepare_dual_stack(const struct row *row)
{
    uint32_t random = 1;
    size_t half = row->size / 2;
    prepare_few_routes(&(struct row){.size = half});
    routes[half] = (struct lk_route){.prefix = {.addr = {.version = 6}}};
    for (size_t i = half + 1; i < row->size; i++)
        routes[i] = (struct lk_route){.prefix = {random_ipv6(&random), i % 2 ? 48 : 64}, .interface = i % 2};
    for (size_t i = 0; i < DESTINATIONS; i += 4) {
        destinations[i] = random_ipv6(&random);
        destinations[i + 1] = routes[half + 1 + random % (half - 1)].prefix.addr;
    }
    index_routes(row->size);
}

/* A default route, and many routes in one block, 2001:db8::/32. Four of five destinations are outside of this block, and
 * have its first 16 or 24 bits. */
static void prepare_own_block(const struct row *row)
{
    uint32_t random = 1;
    routes[0] = (struct lk_route){.prefix = {.addr = {.version = 6}}};
    for (size_t i = 1; i < row->size; i++)
        routes[i] = (struct lk_route){.prefix = {random_ipv6(&random), 64}};
    for (size_t i = 0; i < DESTINATIONS; i++) {
        destinations[i] = random_ipv6(&random);
        if (i % 5 == 0)
            destinations[i] = routes[1 + random % (row->size - 1)].prefix.addr;
        else
            destinations[i].octets[2 + i % 2] ^= 0x20;
    }
    index_routes(row->size);
}

/* An IPv4 address by its number. */
static struct lk_addr ipv4_at(uint32_t number)
{
    return (struct lk_addr){{(uint8_t)(number >> 24), (uint8_t)(number >> 16), (uint8_t)(number >> 8), (uint8_t)number}, 4};
}

/* A default route, and blocks of 256 addresses with equal distances. The destinations are in the blocks. */
static void prepare_blocks(const struct row *row, uint32_t first, uint32_t step)
{
    uint32_t random = 1;
    routes[0] = (struct lk_route){.prefix = {.addr = {.version = 4}}};
    for (size_t i = 1; i < row->size; i++)
        routes[i] = (struct lk_route){.prefix = {ipv4_at(first + (uint32_t)i * step), 24}};
    for (size_t i = 0; i < DESTINATIONS; i++) {
        uint8_t last = random_octet(&random);
        destinations[i] = routes[1 + random % (row->size - 1)].prefix.addr;
        destinations[i].octets[3] = last;
    }
    index_routes(row->size);
}

/* A part of the table has at most one block. */
static void prepare_distant_blocks(const struct row *row)
{
    prepare_blocks(row, 0, (uint32_t)(UINT32_MAX / row->size & ~255u));
}

/* The blocks are in one or two parts of the table. */
static void prepare_close_blocks(const struct row *row)
{
    prepare_blocks(row, 10u << 24, 1024);
}

/* The same, with destinations in parts that have no block. */
static void prepare_no_block(const struct row *row)
{
    uint32_t random = 1;
    prepare_close_blocks(row);
    for (size_t i = 0; i < DESTINATIONS; i++) {
        destinations[i] = random_ipv4(&random);
        destinations[i].octets[0] |= 128;
    }
}

/* Flows through a NAT, and for each a frame, which `frames` has. Every other inside port is an outside port too. */
enum { FLOWS = 256, OUTSIDE_PORTS = 512, FEW_PORTS = 32 };
enum { ICMP = 1, TCP = 6, UDP = 17 };
static const struct lk_nat nat = {
    .key = {0x0123456789abcdef, 0xfedcba9876543210},
    .udp_timeout = 300000,
    .tcp_timeout = 7440000,
    .tcp_transitory_timeout = 240000,
    .icmp_timeout = 60000,
    .outside = {203, 0, 113, 9},
    .first_port = 1024,
};
static struct lk_mapping mappings[LK_MAPPINGS(OUTSIDE_PORTS)];

/* An ICMP flow is one of echo requests. */
static size_t write_flow(size_t flow, int protocol, size_t len, uint8_t *to)
{
    static const struct lk_tcp_options no_options;
    struct lk_frame of = ipv4_headers;
    uint16_t port = (uint16_t)(flow % 2 ? nat.first_port + flow * 37 % OUTSIDE_PORTS : 40000 + flow);
    of.tcp = (struct lk_tcp){.flags = LK_ACK, .window_len = 502};
    of.src = (struct lk_endpoint){{{10, 0, (uint8_t)(flow / 64), (uint8_t)(1 + flow % 64)}, 4}, port};
    of.dst = (struct lk_endpoint){{{198, 51, 100, 1}, 4}, 443};
    of.icmp = (struct lk_icmp){(uint32_t)port << 16 | 1, 8, 0};
    if (protocol == TCP)
        return (size_t)lk_emit_tcp_frame(&of, &no_options, payload, len, to, COLD_ROOM);
    if (protocol == ICMP)
        return (size_t)lk_emit_icmp_frame(&of, payload, len, to, COLD_ROOM);
    return (size_t)lk_emit_udp_frame(&of, payload, len, to, COLD_ROOM);
}

static void prepare_flows(const struct row *row, int protocol)
{
    prepare_bytes(row);
    frame_count = FLOWS;
    for (size_t i = 0; i < FLOWS; i++) {
        frames[i].ptr = room_of_frames[i];
        frames[i].len = write_flow(i, protocol, row->size, room_of_frames[i]);
    }
}

/* Makes a mapping for each flow, as long as there are ports. */
static void prepare_mappings(const struct row *row, int protocol, size_t ports)
{
    memset(mappings, 0, sizeof mappings);
    prepare_flows(row, protocol);
    for (size_t i = 0; i < FLOWS; i++)
        lk_translate_out(&nat, mappings, LK_MAPPINGS(ports), 0, room_of_frames[i], frames[i].len);
}

static void prepare_out(const struct row *row, int protocol, size_t ports)
{
    prepare_mappings(row, protocol, ports);
    prepare_flows(row, protocol);
}

/* The frames are answers to the flows. */
static void prepare_in(const struct row *row, int protocol)
{
    prepare_mappings(row, protocol, OUTSIDE_PORTS);
    for (size_t i = 0; i < FLOWS; i++) {
        struct lk_frame of;
        lk_read_frame(frames[i].ptr, frames[i].len, &of);
        lk_make_reply(&of);
        of.icmp.type = 0;
        if (protocol == TCP)
            lk_wrap_tcp_frame(&of, &(struct lk_tcp_options){.tsval = 0}, row->size, room_of_frames[i], COLD_ROOM);
        else if (protocol == ICMP)
            lk_emit_icmp_frame(&of, payload, row->size, room_of_frames[i], COLD_ROOM);
        else
            lk_wrap_udp_frame(&of, row->size, room_of_frames[i], COLD_ROOM);
    }
}

/* Each frame becomes an ICMP error about it, from the host that it is for. */
static void answer_by_errors(void)
{
    static uint8_t error[COLD_ROOM];
    for (size_t i = 0; i < FLOWS; i++) {
        struct lk_frame of;
        lk_read_frame(frames[i].ptr, frames[i].len, &of);
        struct lk_interface own = {of.dst.addr, {.version = 6}, {2, 0, 0, 0, 0, 2}};
        frames[i].len = (size_t)lk_emit_icmp_error(&own, LK_PORT_CLOSED, 0, frames[i].ptr, frames[i].len, error,
                                                   sizeof error);
        memcpy(room_of_frames[i], error, frames[i].len);
    }
}

/* Errors about what the flows sent, and about the answers to them. */
static void prepare_error_in(const struct row *row)
{
    prepare_mappings(row, UDP, OUTSIDE_PORTS);
    answer_by_errors();
}

static void prepare_error_out(const struct row *row)
{
    const struct lk_ethernet *ethernet = &ipv4_headers.ethernet;
    prepare_in(row, UDP);
    for (size_t i = 0; i < FLOWS; i++) {
        lk_translate_in(&nat, mappings, COUNT(mappings), 0, room_of_frames[i], frames[i].len);
        memcpy(room_of_frames[i], ethernet->dst, 6);
        memcpy(room_of_frames[i] + 6, ethernet->src, 6);
    }
    answer_by_errors();
}

static void prepare_udp_out(const struct row *row) { prepare_out(row, UDP, OUTSIDE_PORTS); }
static void prepare_tcp_out(const struct row *row) { prepare_out(row, TCP, OUTSIDE_PORTS); }
static void prepare_echo_out(const struct row *row) { prepare_out(row, ICMP, OUTSIDE_PORTS); }
static void prepare_udp_full(const struct row *row) { prepare_out(row, UDP, FEW_PORTS); }
static void prepare_udp_in(const struct row *row) { prepare_in(row, UDP); }
static void prepare_tcp_in(const struct row *row) { prepare_in(row, TCP); }
static void prepare_echo_in(const struct row *row) { prepare_in(row, ICMP); }

/* Frames to a host that has the destination of `ipv4_headers`. */
static const uint16_t open_ports[] = {22, 53, 80, 443};
static const struct lk_host host = {
    .open_ports = open_ports,
    .open_port_count = COUNT(open_ports),
    .ipv4 = IPV4(2),
    .ipv6 = IPV6(0xfe, 0x80, 2),
    .hardware = {2, 0, 0, 0, 0, 2},
    .echo_port = 53,
    .window_len = 64240,
    .mss = 1460,
    .window_scale = 7,
};

static void prepare_arp_request(const struct row *row)
{
    struct lk_frame of = ipv4_headers;
    prepare_bytes(row);
    of.arp.operation = 1;
    frame_len = (size_t)lk_emit_arp_frame(&of, bytes, sizeof bytes);
}

/* UDP to a port of the host that is closed. */
static void prepare_closed(const struct lk_frame *headers, const struct lk_addr *addr, const struct row *row)
{
    struct lk_frame of = *headers;
    of.dst = (struct lk_endpoint){*addr, 54};
    prepare_udp(&of, row);
}

static void prepare_closed_ipv4(const struct row *row) { prepare_closed(&ipv4_headers, &host.ipv4, row); }
static void prepare_closed_ipv6(const struct row *row) { prepare_closed(&ipv6_headers, &host.ipv6, row); }

/* An echo request to the host over IPv6. */
static void prepare_ping_ipv6(const struct row *row)
{
    struct lk_frame of = ipv6_headers;
    of.dst.addr = host.ipv6;
    prepare_echo(&of, 128, row->size);
}

static const struct lk_interface host_interface = {IPV4(2), IPV6(0xfe, 0x80, 2), {2, 0, 0, 0, 0, 2}};

/* A solicitation of the host, and its headers. */
static const struct lk_ndisc solicitation = {
    .target = IPV6(0xfe, 0x80, 2),
    .hardware = {2, 0, 0, 0, 0, 1},
    .has_hardware = 1,
};
static const struct lk_frame solicitation_headers = {
    .ethernet = {{2, 0, 0, 0, 0, 1}, {0x33, 0x33, 0xff, 0, 0, 2}, 0},
    .src = {IPV6(0xfe, 0x80, 1), 0},
    .dst = {{{0xff, 0x02, [11] = 1, [12] = 0xff, [15] = 2}, 6}, 0},
};

static void prepare_solicitation(const struct row *row)
{
    prepare_bytes(row);
    frame_len = (size_t)lk_emit_ndisc_frame(&solicitation_headers, &solicitation, bytes, sizeof bytes);
}

static void prepare_syn(const struct row *row)
{
    static const struct header syn = {.tcp = {.flags = LK_SYN, .window_len = 64240},
                                      .options = {.has_mss = 1, .mss = 1460, .sack_permitted = 1,
                                                  .has_timestamp = 1, .tsval = 0x12345678}};
    prepare_tcp_ipv4(&(struct row){.size = row->size, .header = &syn});
}

/* A segment of data, with a timestamp. */
static void prepare_data(const struct row *row)
{
    static const struct header data = {.tcp = {.flags = LK_PSH | LK_ACK, .window_len = 502},
                                       .options = {.has_timestamp = 1, .tsval = 0x12345678, .tsecr = 0x23456789}};
    prepare_tcp_ipv4(&(struct row){.size = row->size, .header = &data});
}
