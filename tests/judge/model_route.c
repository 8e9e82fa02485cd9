/* The model of a router, and of NAT for one packet. */
#include <string.h>
#include "model.h"

/* ---- what a frame carries ---- */

/* Why the IP header of a frame is rejected. The frame is parsed too. */
static int network_rejection(const uint8_t *octets, size_t len, struct lk_frame *frame)
{
    model_read_plain(octets, len, frame);
    if (len < 14 || (frame->ethernet.type != 0x0800 && frame->ethernet.type != 0x86dd))
        return LK_NOT_IP;
    if (frame->network == LK_NO_NETWORK)
        return LK_BAD_HEADER;
    return frame->ipv4_checksum == LK_CHECKSUM_INVALID ? LK_WRONG_CHECKSUM : LK_NOT_REJECTED;
}

/* A message of fewer than 8 bytes is payload. Its type and code are stored all the same, as far as they are there. The
 * identifier of an echo message is its port on either side (RFC 5508, section 3.1). */
static int icmp_rejection(const uint8_t *octets, struct lk_frame *frame)
{
    int is_short = frame->transport != LK_ICMP;
    if (is_short && frame->payload_len > 0)
        frame->icmp.type = octets[frame->payload_offset];
    if (is_short && frame->payload_len > 1)
        frame->icmp.code = octets[frame->payload_offset + 1];
    if ((frame->icmp.type != 8 && frame->icmp.type != 0) || frame->icmp.code != 0)
        return LK_OTHER_PROTOCOL;
    if (is_short || frame->transport_checksum != LK_CHECKSUM_VALID)
        return LK_BAD_TRANSPORT;
    frame->src.port = frame->dst.port = (uint16_t)(frame->icmp.word >> 16);
    return LK_NOT_REJECTED;
}

int nat_rejection(const uint8_t *octets, size_t len, struct lk_frame *frame)
{
    int rejection = network_rejection(octets, len, frame);
    if (rejection == LK_NOT_IP || frame->ethernet.type == 0x86dd)
        return LK_NOT_IP;
    if (rejection != LK_NOT_REJECTED)
        return rejection;
    if (frame->is_fragment)
        return LK_FRAGMENT;
    if (frame->ip.protocol == 1)
        return icmp_rejection(octets, frame);
    if (frame->ip.protocol != 6 && frame->ip.protocol != 17)
        return LK_OTHER_PROTOCOL;
    if (frame->reason != LK_READ || (frame->transport_checksum != LK_CHECKSUM_VALID && frame->transport_checksum != LK_CHECKSUM_OMITTED))
        return LK_BAD_TRANSPORT;
    return LK_NOT_REJECTED;
}

/* ---- a router ---- */

int model_forward(uint8_t *octets, size_t len, const uint8_t *src, const uint8_t *dst)
{
    struct lk_frame frame;
    int rejection = network_rejection(octets, used_len(len), &frame);
    uint8_t *header = octets + 14;
    unsigned before;
    if (rejection != LK_NOT_REJECTED)
        return rejection;
    if (frame.ip.hop_limit <= 1)
        return LK_HOP_LIMIT_TOO_LOW;
    memcpy(octets, dst, 6);
    memcpy(octets + 6, src, 6);
    if (frame.network == LK_IPV6) {
        header[7]--;
        return LK_NOT_REJECTED;
    }
    before = get_word(header + 8);
    header[8]--;
    put_word(header + 10, model_update_checksum((uint16_t)get_word(header + 10), (uint16_t)before,
                                                (uint16_t)get_word(header + 8)));
    return LK_NOT_REJECTED;
}

/* ---- the MSS clamp ---- */

/* The last maximum segment size in options of this length, none of which is malformed, or null. */
static uint8_t *max_seg_size_in(uint8_t *options, size_t len)
{
    uint8_t *found = 0;
    for (size_t at = 0; at < len && options[at] != 0; at += options[at] == 1 ? 1 : options[at + 1])
        if (options[at] == 2)
            found = options + at + 2;
    return found;
}

int model_clamp_mss_as(uint8_t *octets, size_t len, uint16_t mss, int offload)
{
    struct lk_frame frame;
    uint8_t *header, *size;
    size_t options_len;
    uint16_t before;
    int is_left;
    model_read_plain(octets, used_len(len), &frame);
    if (frame.transport != LK_TCP || frame.ipv4_checksum == LK_CHECKSUM_INVALID || (frame.tcp.flags & LK_SYN) == 0)
        return 0;
    header = octets + frame.transport_offset;
    options_len = frame.payload_offset - frame.transport_offset - 20;
    size = max_seg_size_in(header + 20, options_len);
    if (size == 0 || get_word(size) <= mss)
        return 0;
    before = model_checksum(header + 20, options_len);
    put_word(size, mss);
    is_left = offload == LK_OFFLOADED || (offload != LK_COMPLETE && frame.transport_checksum == LK_CHECKSUM_PARTIAL);
    if (!is_left)
        put_word(header + 16, model_update_checksum((uint16_t)get_word(header + 16), before,
                                                    model_checksum(header + 20, options_len)));
    return 1;
}

int model_clamp_mss(uint8_t *octets, size_t len, uint16_t mss)
{
    return model_clamp_mss_as(octets, len, mss, LK_GUESS);
}

/* ---- NAT of one packet ---- */

void update_sum(uint8_t *field, int is_udp, const struct lk_addr *before, const struct lk_addr *after)
{
    uint16_t sum = (uint16_t)get_word(field);
    put_word(field, is_udp ? model_update_udp_checksum_addr(sum, before, after)
                           : model_update_checksum_addr(sum, before, after));
}

void write_port(uint8_t *port_at, uint8_t *field, int is_udp, unsigned port)
{
    uint16_t sum = (uint16_t)get_word(field), before = (uint16_t)get_word(port_at);
    put_word(port_at, port);
    put_word(field, is_udp ? model_update_udp_checksum(sum, before, (uint16_t)port)
                           : model_update_checksum(sum, before, (uint16_t)port));
}

void write_icmp_sum(uint8_t *message, size_t len)
{
    put_word(message + 2, 0);
    put_word(message + 2, 0xffff - model_checksum(message, len));
}

void write_end(uint8_t *octets, const struct lk_frame *frame, int side, const struct lk_endpoint *end)
{
    uint8_t *header = octets + 14, *transport = octets + frame->transport_offset;
    int is_udp = frame->transport == LK_UDP;
    uint8_t *field = transport + (is_udp ? 6 : 16);
    const struct lk_addr *before = side == LK_SOURCE ? &frame->src.addr : &frame->dst.addr;
    if (frame->transport == LK_ICMP) {
        put_word(transport + 4, end->port);
        write_icmp_sum(transport, 8 + frame->payload_len);
    } else {
        update_sum(field, is_udp, before, &end->addr);
        write_port(transport + (side == LK_SOURCE ? 0 : 2), field, is_udp, end->port);
    }
    memcpy(header + (side == LK_SOURCE ? 12 : 16), end->addr.octets, 4);
    update_sum(header + 10, 0, before, &end->addr);
}

int model_translate(uint8_t *octets, size_t len, int side, const struct lk_endpoint *end)
{
    struct lk_frame frame;
    int rejection = nat_rejection(octets, used_len(len), &frame);
    if (end->addr.version != 4)
        return LK_NO_IPV4;
    if (rejection != LK_NOT_REJECTED)
        return rejection;
    if (end->port == 0 && frame.transport != LK_ICMP && (frame.transport == LK_TCP || side != LK_SOURCE))
        return LK_NAT_PORT_ZERO;
    write_end(octets, &frame, side == LK_SOURCE ? LK_SOURCE : LK_DESTINATION, end);
    return LK_NOT_REJECTED;
}

/* ---- routes ---- */

ptrdiff_t model_index_routes(const struct lk_route *routes, size_t count, size_t node_count)
{
    size_t used = used_len(count);
    for (size_t i = 0; i < used; i++)
        if (addr_len(&routes[i].prefix.addr) == 0)
            return LK_NO_VERSION;
    for (size_t i = 0; i < used; i++)
        if (routes[i].prefix.prefix_len > 8 * addr_len(&routes[i].prefix.addr))
            return LK_BAD_PREFIX;
    return count > node_count || node_count > LK_MAX_LEN ? LK_NO_ROOM : (ptrdiff_t)count;
}

ptrdiff_t model_choose_route(const struct lk_route *routes, size_t count, const struct lk_addr *addr)
{
    ptrdiff_t chosen = -1;
    for (size_t i = 0; i < count; i++)
        if (model_contains(&routes[i].prefix, addr) &&
            (chosen < 0 || routes[i].prefix.prefix_len > routes[chosen].prefix.prefix_len))
            chosen = (ptrdiff_t)i;
    return chosen;
}

ptrdiff_t model_make_route_table(size_t count, size_t cell_count)
{
    size_t len;
    if (count >= MODEL_NO_TABLE)
        return LK_NO_ROOM;
    len = 5 * count + 5;
    return len > cell_count || cell_count > LK_MAX_LEN ? LK_NO_ROOM : (ptrdiff_t)len;
}

/* RFC 1122, section 3.2.1.3; RFC 1812, section 5.3.7; RFC 4291, sections 2.5 and 2.7. */
static int is_martian(const struct lk_addr *src)
{
    static const char *const blocks[] = {
        "0.0.0.0/8", "127.0.0.0/8", "224.0.0.0/4", "240.0.0.0/4", "::/128", "::1/128", "::ffff:0:0/96", "ff00::/8",
    };
    for (int i = 0; i < 8; i++)
        if (is_in(src, blocks[i]))
            return 1;
    return addr_len(src) == 0;
}

int model_check_source(const struct lk_route *routes, size_t count, const struct lk_addr *src, unsigned interface)
{
    ptrdiff_t route = model_choose_route(routes, count, src);
    if (is_martian(src))
        return LK_MARTIAN;
    if (route < 0)
        return LK_NO_ROUTE_TO_SOURCE;
    return routes[route].interface == interface ? LK_NOT_REJECTED : LK_OTHER_INTERFACE;
}
