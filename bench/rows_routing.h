/* The rows of a router, a NAT and a host. */
#include "inputs_routing.h"

/* Copies of the frame by turns, since what was just written is slow to load. Each is renewed before its hop limit is
 * used up. */
static uint8_t *next_on_its_way(void)
{
    static uint8_t copies[32][1600];
    uint8_t *copy = copies[next_frame % 32];
    if (next_frame++ % 1024 < 32)
        memcpy(copy, bytes, frame_len);
    return copy;
}

/* Stores a frame to be compared, if it is the first of its turn. */
static void store_first(const uint8_t *frame)
{
    if (next_frame % 1024 == 1)
        memcpy(out.bytes, frame, frame_len);
}

static uint64_t call_forward(const struct library *library, const struct row *row, uint64_t times)
{
    const struct lk_ethernet *ethernet = &ipv4_headers.ethernet;
    __typeof__(library->forward) forward = library->forward;
    uint64_t answers = 0;
    (void)row;
    for (uint64_t i = 0; i < times; i++) {
        uint8_t *frame = next_on_its_way();
        answers += (uint64_t)forward(frame, frame_len, ethernet->dst, ethernet->src);
        store_first(frame);
    }
    return answers;
}

/* The source is one of two endpoints by turns. */
static uint64_t call_translate(const struct library *library, const struct row *row, uint64_t times)
{
    static const struct lk_endpoint ends[] = {{IPV4(7), 40000}, {IPV4(8), 50001}};
    __typeof__(library->translate) translate = library->translate;
    uint64_t answers = 0;
    (void)row;
    for (uint64_t i = 0; i < times; i++) {
        uint8_t *frame = next_on_its_way();
        answers += (uint64_t)translate(frame, frame_len, LK_SOURCE, &ends[next_frame / 32 % 2]);
        store_first(frame);
    }
    return answers;
}

/* The limit falls with each call on a copy. */
static uint64_t call_clamp_mss(const struct library *library, const struct row *row, uint64_t times)
{
    uint64_t answers = 0;
    (void)row;
    for (uint64_t i = 0; i < times; i++) {
        uint8_t *frame = next_on_its_way();
        answers += (uint64_t)library->clamp_mss(frame, frame_len, (uint16_t)(1400 - (next_frame - 1) / 32 % 32));
    }
    return answers;
}

/* The value is one of two by turns. */
#define EDIT(name, ...)                                                                               \
    static uint64_t call_##name(const struct library *library, const struct row *row, uint64_t times) \
    {                                                                                                 \
        uint64_t answers = 0;                                                                         \
        (void)row;                                                                                    \
        for (uint64_t i = 0; i < times; i++) {                                                        \
            uint8_t *frame = next_on_its_way();                                                       \
            answers += (uint64_t)library->name(frame, frame_len __VA_ARGS__);                         \
        }                                                                                             \
        return answers;                                                                               \
    }
#define TURN (next_frame / 32 % 2)
static const struct lk_addr edit_addrs[] = {IPV4(7), IPV4(8)};
static const uint8_t edit_bytes[][4] = {"abcd", "efgh"};
EDIT(set_hop_limit, , (uint8_t)(63 + TURN))
EDIT(set_dscp, , (uint8_t)(45 + TURN))
EDIT(set_addr, , LK_SOURCE, &edit_addrs[TURN])
EDIT(set_port, , LK_SOURCE, (uint16_t)(40000 + TURN))
EDIT(set_bytes, , frame_len - 5, edit_bytes[TURN], 4)
EDIT(fill_checksum, )

#define NEXT_DESTINATION &destinations[next_frame++ % DESTINATIONS]
REPEAT(call_choose_route, choose_route, nodes, row->size, NEXT_DESTINATION)
REPEAT(call_check_source, check_source, routes, row->size, nodes, row->size, NEXT_DESTINATION, 1)
REPEAT(call_index_routes, index_routes, routes, row->size, nodes, row->size)

#define TABLE cells, LK_ROUTE_TABLE_LEN(row->size)
REPEAT(call_make_table, make_route_table, nodes, row->size, TABLE)
REPEAT(call_choose_by_table, choose_route_by_table, nodes, row->size, TABLE, NEXT_DESTINATION)
REPEAT(call_check_by_table, check_source_by_table, routes, row->size, nodes, row->size, TABLE, NEXT_DESTINATION, 1)

/* Copies of the frames by turns. */
static uint8_t *next_copy(size_t *len)
{
    enum { COPIES = 32 };
    static uint8_t copies[COPIES][1600];
    if (next_frame % COPIES == 0)
        for (size_t i = 0; i < COPIES; i++)
            memcpy(copies[i], frames[(next_frame + i) % frame_count].ptr, frames[(next_frame + i) % frame_count].len);
    *len = frames[next_frame % frame_count].len;
    return copies[next_frame++ % COPIES];
}

/* Calls of a NAT with so many ports, each at a time that depends on the number of the call. */
#define NAT_CALLS(name, function, ports, now)                                                           \
    static uint64_t name(const struct library *library, const struct row *row, uint64_t times)          \
    {                                                                                                   \
        uint64_t answers = 0;                                                                           \
        (void)row;                                                                                      \
        for (uint64_t i = 0; i < times; i++) {                                                          \
            size_t len;                                                                                 \
            uint8_t *copy = next_copy(&len);                                                            \
            answers += (uint64_t)library->function(&nat, mappings, LK_MAPPINGS(ports), now, copy, len); \
        }                                                                                               \
        return answers;                                                                                 \
    }

NAT_CALLS(call_nat_out, translate_out, OUTSIDE_PORTS, 1)
NAT_CALLS(call_nat_in, translate_in, OUTSIDE_PORTS, 1)
NAT_CALLS(call_nat_full, translate_out, FEW_PORTS, 1)
/* In each turn the mappings of the turn before have expired. */
NAT_CALLS(call_nat_expired, translate_out, OUTSIDE_PORTS, ((next_frame - 1) / FLOWS + 1) * (nat.tcp_timeout + 1))

REPEAT(call_answer, answer, &host, bytes, frame_len, OUT)
REPEAT(call_emit_icmp_error, emit_icmp_error, &host_interface, LK_PORT_CLOSED, 0, bytes, frame_len, OUT)
/* The first fragment, or the whole packet. */
REPEAT(call_fragment, fragment, bytes, frame_len, 576, 1, 0, OUT)

/* A packet in two fragments. */
static struct lk_reassembly partials[16];
static uint8_t partial_memory[16 * LK_REASSEMBLY_MEMORY];
static uint8_t parts[2][1600];
static size_t part_lens[2];

static void prepare_parts(const struct row *row)
{
    size_t mtu = 20 + (8 + row->size + 15) / 16 * 8;
    prepare_udp_ipv4(row);
    for (size_t n = 0; n < 2; n++)
        part_lens[n] = (size_t)lk_fragment(bytes, frame_len, mtu, 1, n, parts[n], sizeof parts[n]);
}

/* In each turn the packet is a new one. */
static uint64_t take_parts(const struct library *library, size_t count, uint64_t times)
{
    uint64_t answers = 0;
    for (uint64_t i = 0; i < times; i++) {
        partials[0].expires = 0;
        for (size_t n = 0; n < count; n++)
            answers += (uint64_t)library->reassemble(partials, COUNT(partials), partial_memory, sizeof partial_memory, 1,
                                                     parts[n], part_lens[n], OUT);
    }
    return answers;
}

static uint64_t call_reassemble_first(const struct library *library, const struct row *row, uint64_t times)
{
    (void)row;
    return take_parts(library, 1, times);
}

static uint64_t call_reassemble_both(const struct library *library, const struct row *row, uint64_t times)
{
    (void)row;
    return take_parts(library, 2, times);
}

REPEAT(call_read_ndisc, find_ndisc, bytes, frame_len, &out.ndisc)
REPEAT(call_emit_ndisc_frame, emit_ndisc_frame, &solicitation_headers, &solicitation, OUT)

static const struct call forward_rows[] = {
    {"forward UDP/IPv4", prepare_udp_ipv4, call_forward},
    {"forward UDP/IPv6", prepare_udp_ipv6, call_forward},
    {"translate UDP/IPv4", prepare_udp_ipv4, call_translate},
    {"translate TCP/IPv4", prepare_data, call_translate},
    {"translate echo/IPv4", prepare_echo_ipv4, call_translate},
};
static const size_t forward_sizes[] = {0, 64, MOST_PAYLOAD};

/* Their sizes are numbers of routes. */
static const struct call choose_rows[] = {{"choose a route", prepare_routes, call_choose_route}};
static const size_t choose_counts[] = {1000, 100000}, most_routes[] = {MOST_ROUTES};
static const struct call few_rows[] = {
    {"choose a route, small table", prepare_few_routes, call_choose_route},
    {"check a source, small table", prepare_few_routes, call_check_source},
};
static const size_t few_counts[] = {12};
static const struct call dual_rows[] = {
    {"choose a route, dual stack", prepare_dual_stack, call_choose_route},
    {"check a source, dual stack", prepare_dual_stack, call_check_source},
};
static const size_t dual_counts[] = {20};
static const struct call beside_rows[] = {{"choose a route beside a block", prepare_own_block, call_choose_route}};
static const size_t beside_counts[] = {100, 10000};
static const struct call index_rows[] = {
    {"index routes", prepare_routes, call_index_routes},
    {"index routes in order", prepare_ordered_routes, call_index_routes},
};
static const size_t index_counts[] = {12, 200}, many_routes[] = {1000, 100000};

/* The same by a table, and look-ups of each kind. */
static const struct call table_rows[] = {{"make a table of routes", prepare_routes, call_make_table}};
static const struct call by_table_rows[] = {{"choose by a table", prepare_routes, call_choose_by_table}};
static const struct call few_by_table_rows[] = {
    {"choose by a table, small table", prepare_few_routes, call_choose_by_table},
    {"check a source by a table, small", prepare_few_routes, call_check_by_table},
};
static const struct call dual_by_table_rows[] = {
    {"choose by a table, dual stack", prepare_dual_stack, call_choose_by_table},
    {"check a source by a table, dual", prepare_dual_stack, call_check_by_table},
};
static const struct call kind_rows[] = {
    {"choose by a table, whole part", prepare_no_block, call_choose_by_table},
    {"choose by a table, range", prepare_distant_blocks, call_choose_by_table},
    {"choose by a table, divided part", prepare_close_blocks, call_choose_by_table},
    {"choose by a table, IPv6", prepare_own_block, call_choose_by_table},
};
static const size_t kind_counts[] = {1000};

static const struct call nat_rows[] = {
    {"NAT out UDP", prepare_udp_out, call_nat_out},
    {"NAT out TCP", prepare_tcp_out, call_nat_out},
    {"NAT in UDP", prepare_udp_in, call_nat_in},
    {"NAT in TCP", prepare_tcp_in, call_nat_in},
    {"NAT out UDP, expired", prepare_udp_out, call_nat_expired},
    {"NAT out TCP, expired", prepare_tcp_out, call_nat_expired},
    {"NAT out UDP, few ports", prepare_udp_full, call_nat_full},
    {"NAT out echo", prepare_echo_out, call_nat_out},
    {"NAT in echo", prepare_echo_in, call_nat_in},
    {"NAT out ICMP error", prepare_error_out, call_nat_out},
    {"NAT in ICMP error", prepare_error_in, call_nat_in},
};
static const size_t nat_sizes[] = {64};

static const struct call host_rows[] = {
    {"answer ARP", prepare_arp_request, call_answer},
    {"answer UDP/IPv4", prepare_udp_ipv4, call_answer},
    {"answer TCP/IPv4 SYN", prepare_syn, call_answer},
    {"answer TCP/IPv4 data", prepare_data, call_answer},
    {"answer solicitation", prepare_solicitation, call_answer},
    {"clamp the MSS of a SYN", prepare_syn, call_clamp_mss},
    {"clamp the MSS of data", prepare_data, call_clamp_mss},
};
static const size_t host_sizes[] = {0};
static const struct call edit_rows[] = {
    {"set hop limit UDP/IPv4", prepare_udp_ipv4, call_set_hop_limit},
    {"set DSCP UDP/IPv4", prepare_udp_ipv4, call_set_dscp},
    {"set address UDP/IPv4", prepare_udp_ipv4, call_set_addr},
    {"set port UDP/IPv4", prepare_udp_ipv4, call_set_port},
    {"set port TCP/IPv4", prepare_data, call_set_port},
    {"set 4 bytes UDP/IPv4", prepare_udp_ipv4, call_set_bytes},
    {"fill checksum UDP/IPv4", prepare_udp_ipv4, call_fill_checksum},
};
static const struct call message_rows[] = {
    {"answer echo/IPv4", prepare_echo_ipv4, call_answer},
    {"answer echo/IPv6", prepare_ping_ipv6, call_answer},
    {"answer closed port/IPv4", prepare_closed_ipv4, call_answer},
    {"answer closed port/IPv6", prepare_closed_ipv6, call_answer},
    {"emit ICMP error/IPv4", prepare_closed_ipv4, call_emit_icmp_error},
    {"emit ICMP error/IPv6", prepare_closed_ipv6, call_emit_icmp_error},
};
static const size_t message_sizes[] = {64, MOST_PAYLOAD};
static const struct call fragment_rows[] = {
    {"fragment UDP/IPv4", prepare_udp_ipv4, call_fragment},
    {"reassemble UDP/IPv4, first part", prepare_parts, call_reassemble_first},
    {"reassemble UDP/IPv4, two parts", prepare_parts, call_reassemble_both},
};
static const struct call ndisc_rows[] = {
    {"read solicitation", prepare_solicitation, call_read_ndisc},
    {"emit frame solicitation", prepare_solicitation, call_emit_ndisc_frame},
};

/* Of look-ups and of NAT so many calls are counted that the ways through the tables are among them. */
static const struct block routing_blocks[] = {
    BLOCK(forward_rows, forward_sizes, IN_FLOOR, 1), BLOCK(few_rows, few_counts, IN_OURS, 128),
    BLOCK(dual_rows, dual_counts, IN_OURS, 128),     BLOCK(choose_rows, choose_counts, IN_OURS, 256),
    BLOCK(choose_rows, most_routes, IN_OURS, 0),     BLOCK(beside_rows, beside_counts, IN_OURS, 128),
    BLOCK(index_rows, index_counts, IN_OURS, 1),     BLOCK(index_rows, many_routes, IN_OURS, 0),
    BLOCK(table_rows, index_counts, IN_OURS, 1),     BLOCK(table_rows, many_routes, IN_OURS, 0),
    BLOCK(by_table_rows, choose_counts, IN_OURS, 256),
    BLOCK(by_table_rows, most_routes, IN_OURS, 0),   BLOCK(kind_rows, kind_counts, IN_OURS, 128),
    BLOCK(few_by_table_rows, few_counts, IN_OURS, 128),
    BLOCK(dual_by_table_rows, dual_counts, IN_OURS, 128),
    BLOCK(nat_rows, nat_sizes, IN_FLOOR, 64),        BLOCK(host_rows, host_sizes, IN_FLOOR, 1),
    BLOCK(message_rows, message_sizes, IN_FLOOR, 1), BLOCK(ndisc_rows, host_sizes, IN_FLOOR, 1),
    BLOCK(edit_rows, nat_sizes, IN_FLOOR, 1),        BLOCK(fragment_rows, message_sizes, IN_OURS, 1),
};
