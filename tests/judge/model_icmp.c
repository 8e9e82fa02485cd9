/* The model of neighbour discovery (RFC 4861) and of ICMP errors (RFC 1122, RFC 1812, RFC 4443). */
#include <string.h>
#include "model.h"

static int is_unicast_hardware(const uint8_t *hardware)
{
    return (hardware[0] & 1) == 0;
}

/* Copies a result to `out`, if there is room for it. */
static ptrdiff_t finish(const uint8_t *octets, size_t len, uint8_t *out, size_t cap)
{
    if (len > used_len(cap))
        return LK_NO_ROOM;
    if (len != 0)
        memcpy(out, octets, len);
    return (ptrdiff_t)len;
}

/* ---- neighbour discovery ---- */

/* Stores the first option of this type, and returns whether all options are valid. */
static int read_options_of(const uint8_t *ptr, size_t len, unsigned type, struct lk_ndisc *ndisc)
{
    for (size_t at = 0; at < len; at += 8u * ptr[at + 1]) {
        if (len - at < 2 || ptr[at + 1] == 0 || 8u * ptr[at + 1] > len - at)
            return 0;
        if (ptr[at] != type || ndisc->has_hardware)
            continue;
        if (ptr[at + 1] != 1)
            return 0;
        ndisc->has_hardware = 1;
        memcpy(ndisc->hardware, ptr + at + 2, 6);
    }
    return 1;
}

/* RFC 4861, sections 7.1.1 and 7.1.2. */
static int is_allowed(const struct lk_ndisc *ndisc, const struct lk_addr *src, const struct lk_addr *dst)
{
    if (model_is_multicast(&ndisc->target))
        return 0;
    if (ndisc->is_advert)
        return !(ndisc->is_solicited && model_is_multicast(dst));
    return !is_in(src, "::/128") || (is_in(dst, "ff02::1:ff00:0/104") && !ndisc->has_hardware);
}

int model_find_ndisc(const uint8_t *octets, size_t len, struct lk_ndisc *ndisc)
{
    struct lk_frame frame;
    struct lk_ndisc it;
    const uint8_t *message;
    size_t message_len;
    memset(&it, 0, sizeof it);
    model_read_plain(octets, len, &frame);
    if (frame.network != LK_IPV6 || frame.transport != LK_ICMP || frame.transport_checksum != LK_CHECKSUM_VALID ||
        frame.ip.hop_limit != 255 || frame.icmp.code != 0 || (frame.icmp.type != 135 && frame.icmp.type != 136))
        return 0;
    message = octets + frame.transport_offset;
    message_len = 8 + frame.payload_len;
    if (message_len < 24)
        return 0;
    it.target.version = 6;
    memcpy(it.target.octets, message + 8, 16);
    it.is_advert = frame.icmp.type == 136;
    it.is_router = it.is_advert && (message[4] & 0x80) != 0;
    it.is_solicited = it.is_advert && (message[4] & 0x40) != 0;
    it.overrides = it.is_advert && (message[4] & 0x20) != 0;
    if (!read_options_of(message + 24, message_len - 24, it.is_advert ? 2 : 1, &it) ||
        !is_allowed(&it, &frame.src.addr, &frame.dst.addr))
        return 0;
    *ndisc = it;
    return 1;
}

size_t put_ndisc(const struct lk_ndisc *ndisc, const struct lk_addr *src, const struct lk_addr *dst, uint8_t *out)
{
    struct lk_icmp icmp = {0, (uint8_t)(ndisc->is_advert ? 136 : 135), 0};
    uint8_t body[24];
    size_t len = 16;
    if (ndisc->is_advert)
        icmp.word = (ndisc->is_router ? 1u << 31 : 0) | (ndisc->is_solicited ? 1u << 30 : 0) |
                    (ndisc->overrides ? 1u << 29 : 0);
    memcpy(body, ndisc->target.octets, 16);
    if (ndisc->has_hardware) {
        body[16] = ndisc->is_advert ? 2 : 1;
        body[17] = 1;
        memcpy(body + 18, ndisc->hardware, 6);
        len = 24;
    }
    return put_icmp(&icmp, src, dst, body, len, 1, out);
}

ptrdiff_t model_emit_ndisc_frame(const struct lk_frame *headers, const struct lk_ndisc *ndisc, uint8_t *out, size_t cap)
{
    uint8_t octets[86];
    struct lk_ip ip = {0};
    size_t len = ndisc->has_hardware ? 32 : 24;
    if (headers->src.addr.version != 6 || headers->dst.addr.version != 6 || ndisc->target.version != 6)
        return LK_NO_VERSION;
    if (!is_allowed(ndisc, &headers->src.addr, &headers->dst.addr))
        return LK_BAD_FIELD;
    ip.hop_limit = 255;
    put_ethernet(&headers->ethernet, 0x86dd, octets);
    put_ip(&ip, &headers->src.addr, &headers->dst.addr, 58, len, 1, octets + 14);
    put_ndisc(ndisc, &headers->src.addr, &headers->dst.addr, octets + 54);
    return finish(octets, 54 + len, out, cap);
}

/* ---- ICMP errors ---- */

static int is_same(const struct lk_addr *a, const struct lk_addr *b)
{
    return a->version == b->version && memcmp(a->octets, b->octets, addr_len(a)) == 0;
}

/* Whether one host may have this address. */
int is_host(const struct lk_addr *addr)
{
    static const char *const blocks[] = {
        "0.0.0.0/8", "127.0.0.0/8", "224.0.0.0/4", "240.0.0.0/4", "::/128", "::1/128", "::ffff:0:0/96", "ff00::/8",
    };
    for (int i = 0; i < 8; i++)
        if (is_in(addr, blocks[i]))
            return 0;
    return 1;
}

int is_answered(const struct lk_interface *own, const struct lk_addr *src)
{
    return is_host(src) && !is_same(src, &own->ipv4) && !is_same(src, &own->ipv6);
}

/* The numbers of extension headers, but for ESP (RFC 7045, section 4). */
int is_extension_header(unsigned protocol)
{
    static const uint8_t numbers[] = {0, 43, 44, 51, 60, 135, 139, 140};
    return memchr(numbers, (int)protocol, sizeof numbers) != 0;
}

/* A message of a protocol is no query: it is ICMP, and its first byte says so, or there is none. */
static int is_no_query(int is_ipv4, unsigned protocol, const uint8_t *message, size_t len)
{
    if (protocol != (is_ipv4 ? 1 : 58))
        return 0;
    if (len == 0)
        return 1;
    if (is_ipv4)
        return message[0] != 0 && message[0] != 8 && (message[0] < 13 || message[0] > 18);
    return message[0] < 128 || message[0] == 137;
}

/* The length of an extension header with this number, 8 if its own length is cut (RFC 8200, section 4; of an authentication
 * header RFC 4302, section 2.2). */
size_t extension_header_len(unsigned number, const uint8_t *header, size_t len)
{
    if (number == 44 || len < 2)
        return 8;
    return number == 51 ? (header[1] + 2u) * 4 : (header[1] + 1u) * 8;
}

/* Whether the headers after an IPv6 header show that an error may be sent. In a later fragment only the number after its
 * header is known. Of headers that end early: `is_cut_told`. */
static int is_told_of_ipv6(unsigned protocol, const uint8_t *header, size_t len, int is_cut_told)
{
    while (is_extension_header(protocol)) {
        const size_t header_len = extension_header_len(protocol, header, len);
        if (len < header_len)
            return is_cut_told;
        if (protocol == 44 && get_word(header + 2) >= 8)
            return is_extension_header(header[0]) ? is_cut_told : header[0] != 58;
        protocol = header[0];
        header += header_len;
        len -= header_len;
    }
    return !is_no_query(0, protocol, header, len);
}

/* Whether an error may be sent about a frame whose packet has `len` bytes, its header `header_len` of them. */
int is_told_of(const struct lk_interface *own, const struct lk_frame *frame, const uint8_t *packet, size_t len,
               size_t header_len, int is_cut_told)
{
    const struct lk_addr *own_addr = frame->network == LK_IPV4 ? &own->ipv4 : &own->ipv6;
    if (memcmp(frame->ethernet.dst, own->hardware, 6) != 0 || !is_unicast_hardware(frame->ethernet.src) ||
        frame->ipv4_checksum == LK_CHECKSUM_INVALID || !is_answered(own, &frame->src.addr) || !is_host(&frame->dst.addr) ||
        !is_host(own_addr))
        return 0;
    if (frame->network == LK_IPV6)
        return is_told_of_ipv6(frame->ip.protocol, packet + header_len, len - header_len, is_cut_told);
    return frame->ip.fragment_offset == 0 && !is_no_query(1, frame->ip.protocol, packet + header_len, len - header_len);
}

/* Whether the frame has the problem. */
static int has_problem(int problem, uint32_t mtu, const struct lk_frame *frame, size_t len)
{
    if (problem == LK_HOP_LIMIT_EXPIRED)
        return frame->ip.hop_limit <= 1;
    if (problem == LK_PACKET_TOO_BIG)
        return len > mtu && (frame->network == LK_IPV6 || frame->ip.dont_fragment);
    return problem > LK_PACKET_TOO_BIG && problem <= LK_FRAGMENT_MISSING;
}

static struct lk_icmp message_for(int problem, uint32_t mtu, int is_ipv4)
{
    static const uint8_t ipv4[][2] = {{0, 0}, {11, 0}, {3, 4}, {3, 0}, {3, 1}, {3, 3}, {3, 13}, {11, 1}};
    static const uint8_t ipv6[][2] = {{0, 0}, {3, 0}, {2, 0}, {1, 0}, {1, 3}, {1, 4}, {1, 1}, {3, 1}};
    const uint8_t *it = is_ipv4 ? ipv4[problem] : ipv6[problem];
    struct lk_icmp icmp = {0, it[0], it[1]};
    if (problem == LK_PACKET_TOO_BIG)
        icmp.word = is_ipv4 && mtu > 65535 ? 65535 : mtu;
    return icmp;
}

size_t put_error_message(const struct lk_interface *own, const struct lk_frame *frame, const struct lk_icmp *icmp,
                         const uint8_t *packet, size_t packet_len, uint8_t *out)
{
    const int is_ipv4 = frame->network == LK_IPV4;
    const struct lk_addr *src = is_ipv4 ? &own->ipv4 : &own->ipv6;
    const size_t most = is_ipv4 ? 576 - 20 - 8 : 1280 - 40 - 8;
    struct lk_ethernet link;
    struct lk_ip ip = {0};
    size_t at;
    if (packet_len > most)
        packet_len = most;
    memcpy(link.dst, frame->ethernet.src, 6);
    memcpy(link.src, own->hardware, 6);
    ip.hop_limit = 64;
    ip.dont_fragment = 1;
    at = put_ethernet(&link, frame->ethernet.type, out);
    at += put_ip(&ip, src, &frame->src.addr, is_ipv4 ? 1 : 58, 8 + packet_len, 1, out + at);
    return at + put_icmp(icmp, src, &frame->src.addr, packet, packet_len, 1, out + at);
}

size_t put_icmp_error(const struct lk_interface *own, int problem, uint32_t mtu, const uint8_t *octets, size_t len,
                      uint8_t *out)
{
    struct lk_frame frame;
    struct lk_icmp icmp;
    const uint8_t *packet = octets + 14;
    int is_ipv4;
    size_t packet_len, header_len;
    model_read_plain(octets, len, &frame);
    is_ipv4 = frame.network == LK_IPV4;
    if (!is_ipv4 && frame.network != LK_IPV6)
        return 0;
    packet_len = is_ipv4 ? get_word(packet + 2) : 40 + get_word(packet + 4);
    header_len = is_ipv4 ? 4u * (packet[0] & 15) : 40;
    if (!is_told_of(own, &frame, packet, packet_len, header_len, 0) || !has_problem(problem, mtu, &frame, packet_len))
        return 0;
    icmp = message_for(problem, mtu, is_ipv4);
    return put_error_message(own, &frame, &icmp, packet, packet_len, out);
}

ptrdiff_t model_emit_icmp_error(const struct lk_interface *own, int problem, uint32_t mtu, const uint8_t *octets,
                                size_t len, uint8_t *out, size_t cap)
{
    uint8_t error[1294];
    if (own->ipv4.version != 4 || own->ipv6.version != 6)
        return LK_NO_VERSION;
    if (len > LK_MAX_LEN)
        return LK_NO_HEADER;
    return finish(error, put_icmp_error(own, problem, mtu, octets, len, error), out, cap);
}
