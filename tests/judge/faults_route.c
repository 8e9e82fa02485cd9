/* Faults of the calls of a router and NAT. */
#include <string.h>
#include "faults.h"
#include "ip_wire.h"

/* ---- the calls of the library itself ---- */

int __real_lk_forward(uint8_t *frame, size_t len, const uint8_t *src, const uint8_t *dst);
int __real_lk_translate(uint8_t *frame, size_t len, int side, const struct lk_endpoint *end);
int __real_lk_clamp_mss(uint8_t *frame, size_t len, uint16_t mss);
int __real_lk_clamp_mss_as(uint8_t *frame, size_t len, uint16_t mss, int offload);
ptrdiff_t __real_lk_index_routes(const struct lk_route *routes, size_t count, struct lk_route_node *nodes,
                                 size_t node_count);
int __real_lk_check_source(const struct lk_route *routes, size_t route_count, const struct lk_route_node *nodes,
                           size_t count, const struct lk_addr *src, uint16_t interface);
ptrdiff_t __real_lk_make_route_table(const struct lk_route_node *nodes, size_t count, uint64_t *cells,
                                     size_t cell_count);
ptrdiff_t __real_lk_choose_route_by_table(const struct lk_route_node *nodes, size_t count, const uint64_t *cells,
                                          size_t cell_count, const struct lk_addr *addr);
int __real_lk_check_source_by_table(const struct lk_route *routes, size_t route_count,
                                    const struct lk_route_node *nodes, size_t count, const uint64_t *cells,
                                    size_t cell_count, const struct lk_addr *src, uint16_t interface);
int __real_lk_translate_out(const struct lk_nat *nat, struct lk_mapping *mappings, size_t count, uint64_t now,
                            uint8_t *frame, size_t len);
int __real_lk_translate_in(const struct lk_nat *nat, struct lk_mapping *mappings, size_t count, uint64_t now,
                           uint8_t *frame, size_t len);

/* ---- a router and NAT ---- */

int __wrap_lk_forward(uint8_t *frame, size_t len, const uint8_t *src, const uint8_t *dst)
{
    uint8_t sum[2] = {0, 0};
    int result, is_ipv4 = len >= 34 && len <= LK_MAX_LEN && frame[12] == 8 && frame[13] == 0;
    if (is_ipv4)
        memcpy(sum, frame + 24, 2);
    if (fault == HOSTS_EXCHANGED)
        result = __real_lk_forward(frame, len, dst, src);
    else
        result = __real_lk_forward(frame, len, src, dst);
    if (fault == HEADER_SUM_LEFT && result == LK_NOT_REJECTED && is_ipv4)
        memcpy(frame + 24, sum, 2);
    return result;
}

int __wrap_lk_translate(uint8_t *frame, size_t len, int side, const struct lk_endpoint *end)
{
    int result = __real_lk_translate(frame, len, fault == SIDE_OF_ONE_BYTE ? side & 0xff : side, end);
    struct lk_frame f;
    lk_read_frame(frame, len, &f);
    if (fault == CHECKSUM_BEFORE_TYPE && result == LK_OTHER_PROTOCOL && f.transport_checksum == LK_CHECKSUM_INVALID)
        return LK_BAD_TRANSPORT;
    if (fault == ECHO_OF_0_REJECTED && result == LK_NOT_REJECTED && end->port == 0 && frame[23] == 1)
        return LK_NAT_PORT_ZERO;
    return result;
}

int __wrap_lk_clamp_mss(uint8_t *frame, size_t len, uint16_t mss)
{
    struct lk_frame f;
    int result;
    lk_read_frame(frame, len, &f);
    if (fault == SYN_ACK_LEFT && (f.tcp.flags & LK_ACK))
        return 0;
    result = __real_lk_clamp_mss(frame, len, mss);
    if (fault == PARTIAL_SUM_UPDATED && result == 1 && f.transport_checksum == LK_CHECKSUM_PARTIAL)
        frame[f.transport_offset + 16] ^= 1;
    return result;
}

int __wrap_lk_clamp_mss_as(uint8_t *frame, size_t len, uint16_t mss, int offload)
{
    if (fault == OFFLOADED_CLAMP_GUESSED && offload == LK_OFFLOADED)
        offload = LK_GUESS;
    return __real_lk_clamp_mss_as(frame, len, mss, offload);
}

/* Indexes the routes from the last to the first. */
ptrdiff_t __wrap_lk_index_routes(const struct lk_route *routes, size_t count, struct lk_route_node *nodes,
                                 size_t node_count)
{
    static struct lk_route reversed[64];
    ptrdiff_t result;
    if (fault == LONG_LIST_INDEXED && count > LK_MAX_LEN)
        count = 0;
    if (fault != LAST_OF_EQUAL_ROUTES || count > 64)
        return __real_lk_index_routes(routes, count, nodes, node_count);
    for (size_t i = 0; i < count; i++)
        reversed[count - 1 - i] = routes[i];
    result = __real_lk_index_routes(reversed, count, nodes, node_count);
    for (ptrdiff_t i = 0; i < result; i++)
        nodes[i].route = (uint32_t)count - 1 - nodes[i].route;
    return result;
}

int __wrap_lk_check_source(const struct lk_route *routes, size_t route_count, const struct lk_route_node *nodes,
                           size_t count, const struct lk_addr *src, uint16_t interface)
{
    int result = __real_lk_check_source(routes, route_count, nodes, count, src, interface);
    return fault == RESERVED_SOURCE_ACCEPTED && src->version == 4 && src->octets[0] >= 240 ? LK_NOT_REJECTED : result;
}

/* ---- tables of routes ---- */

/* The first node stands twice, and the second one nowhere. */
static ptrdiff_t make_without_second(const struct lk_route_node *nodes, size_t count, uint64_t *cells, size_t cell_count)
{
    static struct lk_route_node others[64];
    memcpy(others, nodes, count * sizeof *nodes);
    others[1] = others[0];
    return __real_lk_make_route_table(others, count, cells, cell_count);
}

/* The last cell of hints stays as it was. */
static ptrdiff_t make_without_hint(const struct lk_route_node *nodes, size_t count, uint64_t *cells, size_t cell_count)
{
    uint64_t *hint = cells + 3 * count + 2, old = *hint;
    ptrdiff_t result = __real_lk_make_route_table(nodes, count, cells, cell_count);
    *hint = old;
    return result;
}

ptrdiff_t __wrap_lk_make_route_table(const struct lk_route_node *nodes, size_t count, uint64_t *cells,
                                     size_t cell_count)
{
    ptrdiff_t result;
    if (fault == NODE_LEFT_OUT_OF_TABLE && count > 1 && count <= 64)
        return make_without_second(nodes, count, cells, cell_count);
    if (fault == CELL_NOT_WRITTEN && count < 64 && LK_ROUTE_TABLE_LEN(count) <= cell_count && cell_count <= LK_MAX_LEN)
        return make_without_hint(nodes, count, cells, cell_count);
    if (fault == TABLE_WITHOUT_ROOM && count < 64 && cell_count == LK_ROUTE_TABLE_LEN(count) - 1)
        cell_count++;
    result = __real_lk_make_route_table(nodes, count, cells, cell_count);
    if (fault == CELL_WRITTEN_PAST_THE_TABLE && result > 0 && (size_t)result < cell_count)
        cells[result]++;
    return result;
}

/* The address before this one. */
static struct lk_addr before(const struct lk_addr *addr)
{
    struct lk_addr other = *addr;
    for (size_t i = 4; i > 0 && other.octets[i - 1]-- == 0;)
        i--;
    return other;
}

ptrdiff_t __wrap_lk_choose_route_by_table(const struct lk_route_node *nodes, size_t count, const uint64_t *cells,
                                          size_t cell_count, const struct lk_addr *addr)
{
    struct lk_addr other = *addr;
    ptrdiff_t result;
    if (fault == RANGE_FROM_THE_SECOND_ADDRESS && addr->version == 4)
        other = before(addr);
    if (fault == TABLE_WITHOUT_IPV6 && addr->version == 6 && cell_count > 0)
        return -1;
    if (fault == NO_ROUTE_BY_TOO_FEW_CELLS && count <= LK_MAX_LEN && cell_count < LK_ROUTE_TABLE_LEN(count))
        return -1;
    result = __real_lk_choose_route_by_table(nodes, count, cells, cell_count, &other);
    if (fault == CELL_READ_PAST_THE_TABLE && cell_count > 0 && cell_count <= LK_MAX_LEN)
        result |= (ptrdiff_t)(*(const volatile uint64_t *)&cells[cell_count] & 0);
    if (fault == LAST_RANGE_FORGOTTEN && addr->version == 4 && memcmp(addr->octets, "\xff\xff\xff\xff", 4) == 0)
        return -1;
    return result;
}

int __wrap_lk_check_source_by_table(const struct lk_route *routes, size_t route_count,
                                    const struct lk_route_node *nodes, size_t count, const uint64_t *cells,
                                    size_t cell_count, const struct lk_addr *src, uint16_t interface)
{
    int result =
        __real_lk_check_source_by_table(routes, route_count, nodes, count, cells, cell_count, src, interface);
    return fault == MARTIAN_BY_TABLE_ACCEPTED && result == LK_MARTIAN && cell_count > 0 ? LK_NOT_REJECTED : result;
}

/* ---- NAT with a table ---- */

int __wrap_lk_translate_out(const struct lk_nat *nat, struct lk_mapping *mappings, size_t count, uint64_t now,
                            uint8_t *frame, size_t len)
{
    struct lk_nat other = *nat;
    if (fault == ICMP_LIVES_AS_UDP)
        other.icmp_timeout = nat->udp_timeout;
    return __real_lk_translate_out(&other, mappings, count, now, frame, len);
}

int __wrap_lk_translate_in(const struct lk_nat *nat, struct lk_mapping *mappings, size_t count, uint64_t now,
                           uint8_t *frame, size_t len)
{
    uint64_t time = fault == LIVE_FOR_TOO_LONG && now > 0 ? now - 1 : now;
    static uint8_t before[0x20000];
    size_t ports = count / LK_MAPPINGS(1), n;
    struct lk_mapping *mapping;
    struct lk_frame f;
    int result;
    lk_read_frame(frame, len, &f);
    if (f.transport == LK_ICMP)
        f.dst.port = (uint16_t)(f.icmp.word >> 16);
    n = (size_t)f.dst.port - nat->first_port;
    mapping = mappings + (f.transport == LK_TCP ? ports : 0) + n;
    if (fault == ECHO_FOR_A_UDP_MAPPING && f.transport == LK_ICMP && n < ports && mapping->expires <= now)
        return LK_NO_MAPPING;
    if (fault == FILTERED_BY_REMOTE && n < ports && memcmp(mapping->remote, f.src.addr.octets, 4) != 0 &&
        mapping->expires > now)
        return LK_NO_MAPPING;
    memcpy(before, frame, len < sizeof before ? len : 0);
    result = __real_lk_translate_in(nat, mappings, count, time, frame, len);
    if (fault == QUOTED_PACKET_LEFT && result == LK_NOT_REJECTED && f.transport == LK_ICMP && f.icmp.type != 0)
        memcpy(frame + f.payload_offset, before + f.payload_offset, f.payload_len);
    if (fault == QUOTED_CHECKSUM_VERIFIED && result == LK_NOT_REJECTED && f.transport == LK_ICMP && f.icmp.type != 0 &&
        lk_checksum(before + f.payload_offset, 4u * (before[f.payload_offset] & 15)) != 0xffff)
        return LK_BAD_TRANSPORT;
    if (fault == OTHER_QUOTED_AS_BAD && result == LK_NO_MAPPING && f.transport == LK_ICMP && f.icmp.type != 0 &&
        f.icmp.type != 8 && before[f.payload_offset + 9] == 47)
        return LK_BAD_TRANSPORT;
    if (fault == KEPT_ALIVE_BY_INBOUND && result == LK_NOT_REJECTED && f.transport == LK_UDP)
        mapping->expires = now + nat->udp_timeout;
    return result;
}
