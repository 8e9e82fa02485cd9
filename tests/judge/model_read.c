/* The model of reading: Ethernet II; ARP, RFC 826; IPv4, RFC 791; IPv6, RFC 8200; authentication headers, RFC 4302; ICMP,
 * RFC 792 and RFC 4443; UDP, RFC 768; TCP, RFC 9293. */
#include <string.h>
#include "model.h"

/* A frame of `len` bytes, of which the first `captured` are at `ptr`. If it is plain, IPv6 extension headers are payload. */
struct capture {
    const uint8_t *ptr;
    size_t captured;
    size_t len;
    int is_plain;
};

/* A header of a frame: `len` bytes are there for it and what it carries, and the first `known` are captured. */
struct part {
    const uint8_t *ptr;
    size_t known;
    size_t len;
};

static struct part part_at(const struct capture *capture, size_t at, size_t len)
{
    struct part part = {capture->ptr + at, 0, len};
    if (capture->captured > at)
        part.known = capture->captured - at < len ? capture->captured - at : len;
    return part;
}

/* What is read next begins at `at`, and is the payload if it is not read. */
static void carries(struct lk_frame *frame, size_t at, size_t len)
{
    frame->payload_offset = at;
    frame->payload_len = len;
}

/* Stores the reason, and leaves the payload at the rejected header. */
static void reject(struct lk_frame *frame, int reason)
{
    frame->reason = (uint8_t)reason;
}

static void read_addr(struct lk_addr *addr, const uint8_t *octets, uint16_t version)
{
    memset(addr, 0, sizeof *addr);
    addr->version = version;
    memcpy(addr->octets, octets, addr_len(addr));
}

/* ---- UDP and TCP ---- */

/* `covered` bytes of the part are summed, with their pseudo-header. A UDP checksum of 0 over IPv6 is wrong (RFC 8200,
 * section 8.1). Open: a sum that is right and is that of the pseudo-header too is LK_CHECKSUM_VALID. */
static int verdict(const struct lk_frame *frame, struct part part, size_t covered, size_t field_at)
{
    unsigned field = get_word(part.ptr + field_at), protocol = frame->protocol;
    const struct lk_addr *src = &frame->src.addr, *dst = &frame->dst.addr;
    if (protocol == 17 && field == 0)
        return frame->network == LK_IPV4 ? LK_CHECKSUM_OMITTED : LK_CHECKSUM_INVALID;
    if (part.known < covered)
        return LK_CHECKSUM_CUT;
    if (pseudo_sum(src, dst, protocol, part.ptr, covered, covered) == 0xffff)
        return LK_CHECKSUM_VALID;
    return pseudo_sum(src, dst, protocol, part.ptr, covered, 0) == field ? LK_CHECKSUM_PARTIAL : LK_CHECKSUM_INVALID;
}

static int udp_reason(struct part part)
{
    if (part.len < 8)
        return LK_TOO_SHORT;
    if (part.known < 8)
        return LK_HEADER_CUT;
    if (get_word(part.ptr + 4) < 8 || get_word(part.ptr + 4) > part.len)
        return LK_BAD_LENGTH;
    return get_word(part.ptr + 2) == 0 ? LK_PORT_ZERO : LK_READ;
}

static int controls(unsigned flags)
{
    return (flags & LK_SYN ? 1 : 0) + (flags & LK_FIN ? 1 : 0) + (flags & LK_RST ? 1 : 0);
}

static int tcp_reason(struct part part)
{
    size_t header_len;
    if (part.len < 20)
        return LK_TOO_SHORT;
    if (part.known < 20)
        return LK_HEADER_CUT;
    header_len = 4u * (part.ptr[12] >> 4);
    if (header_len < 20 || header_len > part.len)
        return LK_BAD_LENGTH;
    if (get_word(part.ptr) == 0 || get_word(part.ptr + 2) == 0)
        return LK_PORT_ZERO;
    if (controls(part.ptr[13]) > 1)
        return LK_BAD_FLAGS;
    if (part.known < header_len)
        return LK_HEADER_CUT;
    return is_malformed(part.ptr, header_len) ? LK_BAD_OPTIONS : LK_READ;
}

static void read_ports(struct lk_frame *frame, struct part part, size_t at)
{
    frame->transport_offset = at;
    frame->src.port = (uint16_t)get_word(part.ptr);
    frame->dst.port = (uint16_t)get_word(part.ptr + 2);
}

/* Open: a header of which nothing is stored has no verdict. */
static void read_udp(const struct capture *capture, struct lk_frame *frame, size_t at, size_t len)
{
    struct part part = part_at(capture, at, len);
    int reason = udp_reason(part);
    reject(frame, reason);
    if (part.known < 8)
        return;
    read_ports(frame, part, at);
    if (reason == LK_READ)
        carries(frame, at + 8, get_word(part.ptr + 4) - 8);
    if (reason == LK_READ)
        frame->transport = LK_UDP;
    else
        frame->rejected = LK_UDP;
    if (reason != LK_BAD_LENGTH)
        frame->transport_checksum = (uint8_t)verdict(frame, part, get_word(part.ptr + 4), 6);
}

static void read_tcp(const struct capture *capture, struct lk_frame *frame, size_t at, size_t len)
{
    struct part part = part_at(capture, at, len);
    int reason = tcp_reason(part);
    reject(frame, reason);
    if (part.known < 20)
        return;
    read_ports(frame, part, at);
    frame->tcp.seq_number = get_long(part.ptr + 4);
    frame->tcp.ack_number = get_long(part.ptr + 8);
    frame->tcp.header_len = (uint8_t)(4 * (part.ptr[12] >> 4));
    frame->tcp.flags = part.ptr[13];
    frame->tcp.window_len = (uint16_t)get_word(part.ptr + 14);
    frame->tcp.urgent_at = (uint16_t)get_word(part.ptr + 18);
    if (reason == LK_READ)
        carries(frame, at + frame->tcp.header_len, len - frame->tcp.header_len);
    if (reason == LK_READ)
        frame->transport = LK_TCP;
    else
        frame->rejected = LK_TCP;
    frame->transport_checksum = (uint8_t)verdict(frame, part, len, 16);
}

/* No ICMP message is rejected: one of fewer than 8 known bytes is payload. */
static void read_icmp(const struct capture *capture, struct lk_frame *frame, size_t at, size_t len)
{
    struct part part = part_at(capture, at, len);
    if (part.known < 8)
        return;
    frame->transport = LK_ICMP;
    frame->transport_offset = at;
    frame->icmp.type = part.ptr[0];
    frame->icmp.code = part.ptr[1];
    frame->icmp.word = get_long(part.ptr + 4);
    carries(frame, at + 8, len - 8);
    if (part.known < len)
        frame->transport_checksum = LK_CHECKSUM_CUT;
    else
        frame->transport_checksum = icmp_sum(&frame->src.addr, &frame->dst.addr, part.ptr, len) == 0xffff
                                        ? LK_CHECKSUM_VALID
                                        : LK_CHECKSUM_INVALID;
}

/* A fragment of which the last header names this protocol: only the first fragment begins with its ports. */
static void read_first_ports(const struct capture *capture, struct lk_frame *frame, unsigned protocol, size_t at, size_t len)
{
    struct part part = part_at(capture, at, len);
    if (frame->ip.fragment_offset != 0 || (protocol != 17 && protocol != 6) || part.known < 4)
        return;
    frame->src.port = (uint16_t)get_word(part.ptr);
    frame->dst.port = (uint16_t)get_word(part.ptr + 2);
}

static void read_transport(const struct capture *capture, struct lk_frame *frame, size_t at, size_t len)
{
    if (frame->protocol == (frame->network == LK_IPV4 ? 1 : 58))
        read_icmp(capture, frame, at, len);
    if (frame->protocol == 17)
        read_udp(capture, frame, at, len);
    else if (frame->protocol == 6)
        read_tcp(capture, frame, at, len);
}

/* ---- ARP, IPv4 and IPv6 ---- */

/* The shortest header is that for Ethernet and IPv4, whatever the lengths of addresses say. */
static int arp_reason(struct part part)
{
    static const uint8_t expected[] = {0, 1, 8, 0, 6, 4};
    if (part.len < 28)
        return LK_TOO_SHORT;
    if (part.known < 28)
        return LK_HEADER_CUT;
    return memcmp(part.ptr, expected, sizeof expected) != 0 ? LK_OTHER_ARP : LK_READ;
}

static void read_arp(const struct capture *capture, struct lk_frame *frame, size_t at)
{
    struct part part = part_at(capture, at, capture->len - at);
    int reason = arp_reason(part);
    reject(frame, reason);
    if (reason != LK_READ)
        return;
    frame->network = LK_ARP;
    frame->network_offset = at;
    frame->arp.operation = (uint16_t)get_word(part.ptr + 6);
    memcpy(frame->arp.src_hardware, part.ptr + 8, 6);
    read_addr(&frame->src.addr, part.ptr + 14, 4);
    memcpy(frame->arp.dst_hardware, part.ptr + 18, 6);
    read_addr(&frame->dst.addr, part.ptr + 24, 4);
    carries(frame, at + 28, 0);
}

static int ipv4_reason(struct part part)
{
    size_t header_len, total_len;
    if (part.len < 20)
        return LK_TOO_SHORT;
    if (part.known < 20)
        return LK_HEADER_CUT;
    if (part.ptr[0] >> 4 != 4)
        return LK_BAD_VERSION;
    header_len = 4u * (part.ptr[0] & 15);
    total_len = get_word(part.ptr + 2);
    if (header_len < 20 || header_len > total_len || total_len > part.len)
        return LK_BAD_LENGTH;
    return part.known < header_len ? LK_HEADER_CUT : LK_READ;
}

static void read_ipv4_fields(struct lk_frame *frame, const uint8_t *ptr)
{
    frame->ip.dscp = ptr[1] >> 2;
    frame->ip.ecn = ptr[1] & 3;
    frame->ip.ident = get_word(ptr + 4);
    frame->ip.dont_fragment = ptr[6] >> 6 & 1;
    frame->ip.more_fragments = ptr[6] >> 5 & 1;
    frame->ip.fragment_offset = (uint16_t)(8 * (get_word(ptr + 6) & 0x1fff));
    frame->ip.hop_limit = ptr[8];
    frame->ip.protocol = frame->protocol = ptr[9];
    read_addr(&frame->src.addr, ptr + 12, 4);
    read_addr(&frame->dst.addr, ptr + 16, 4);
}

static void read_ipv4(const struct capture *capture, struct lk_frame *frame, size_t at)
{
    struct part part = part_at(capture, at, capture->len - at);
    int reason = ipv4_reason(part);
    size_t header_len, len;
    reject(frame, reason);
    if (reason != LK_READ)
        return;
    header_len = 4u * (part.ptr[0] & 15);
    len = get_word(part.ptr + 2) - header_len;
    frame->network = LK_IPV4;
    frame->network_offset = at;
    frame->ipv4_checksum = model_checksum(part.ptr, header_len) == 0xffff ? LK_CHECKSUM_VALID : LK_CHECKSUM_INVALID;
    read_ipv4_fields(frame, part.ptr);
    carries(frame, at + header_len, len);
    frame->is_fragment = frame->ip.more_fragments || frame->ip.fragment_offset != 0;
    if (frame->is_fragment)
        read_first_ports(capture, frame, frame->protocol, at + header_len, len);
    else
        read_transport(capture, frame, at + header_len, len);
}

static int ipv6_reason(struct part part)
{
    if (part.len < 40)
        return LK_TOO_SHORT;
    if (part.known < 40)
        return LK_HEADER_CUT;
    if (part.ptr[0] >> 4 != 6)
        return LK_BAD_VERSION;
    return 40 + get_word(part.ptr + 4) > part.len ? LK_BAD_LENGTH : LK_READ;
}

/* RFC 8200, section 4.5. */
static void read_fragment_header(struct lk_frame *frame, struct part part)
{
    frame->ip.fragment_offset = (uint16_t)(get_word(part.ptr + 2) & 0xfff8);
    frame->ip.more_fragments = part.ptr[3] & 1;
    frame->ip.ident = get_long(part.ptr + 4);
    frame->is_fragment = frame->ip.more_fragments || frame->ip.fragment_offset != 0;
}

/* RFC 8200, sections 4.3 to 4.6; RFC 4302, section 2.2. */
size_t extension_len(unsigned protocol, const uint8_t *ptr)
{
    switch (protocol) {
    case 0:
    case 43:
    case 60:
        return 8 * (1 + (size_t)ptr[1]);
    case 44:
        return 8;
    default:
        return 4 * (2 + (size_t)ptr[1]);
    }
}

int is_extension(unsigned protocol)
{
    return protocol == 0 || protocol == 43 || protocol == 44 || protocol == 51 || protocol == 60;
}

/* RFC 8200, section 4.1: only the IPv6 header is before hop-by-hop options. Section 4.4: with segments left the packet is
 * on its way to another destination than that of the IPv6 header. */
static int extension_reason(const struct lk_frame *frame, struct part part, size_t at)
{
    size_t header_len;
    if (part.len < 8)
        return LK_TOO_SHORT;
    if (part.known < 8)
        return LK_HEADER_CUT;
    header_len = extension_len(frame->protocol, part.ptr);
    if (header_len > part.len)
        return LK_TOO_SHORT;
    if (header_len > part.known)
        return LK_HEADER_CUT;
    if (frame->protocol == 43 && part.ptr[3] > 0)
        return LK_HOPS_LEFT;
    return frame->protocol == 0 && at != frame->network_offset + 40 ? LK_BAD_ORDER : LK_READ;
}

/* Reads what the IPv6 header or an extension header names. */
static void read_next(const struct capture *capture, struct lk_frame *frame, size_t at, size_t len)
{
    struct part part = part_at(capture, at, len);
    size_t header_len;
    if (!is_extension(frame->protocol)) {
        read_transport(capture, frame, at, len);
        return;
    }
    reject(frame, extension_reason(frame, part, at));
    if (frame->reason != LK_READ)
        return;
    if (frame->protocol == 44)
        read_fragment_header(frame, part);
    if (frame->is_fragment) {
        read_first_ports(capture, frame, part.ptr[0], at + 8, len - 8);
        return;
    }
    header_len = extension_len(frame->protocol, part.ptr);
    frame->protocol = part.ptr[0];
    carries(frame, at + header_len, len - header_len);
    read_next(capture, frame, at + header_len, len - header_len);
}

static void read_ipv6(const struct capture *capture, struct lk_frame *frame, size_t at)
{
    struct part part = part_at(capture, at, capture->len - at);
    int reason = ipv6_reason(part);
    unsigned traffic_class;
    size_t len;
    reject(frame, reason);
    if (reason != LK_READ)
        return;
    traffic_class = get_word(part.ptr) >> 4 & 0xff;
    len = get_word(part.ptr + 4);
    frame->network = LK_IPV6;
    frame->network_offset = at;
    frame->ip.dscp = (uint8_t)(traffic_class >> 2);
    frame->ip.ecn = traffic_class & 3;
    frame->ip.flow_label = get_long(part.ptr) & 0xfffff;
    frame->ip.protocol = frame->protocol = part.ptr[6];
    frame->ip.hop_limit = part.ptr[7];
    read_addr(&frame->src.addr, part.ptr + 8, 6);
    read_addr(&frame->dst.addr, part.ptr + 24, 6);
    carries(frame, at + 40, len);
    if (!capture->is_plain)
        read_next(capture, frame, at + 40, len);
    else if (!is_extension(frame->protocol))
        read_transport(capture, frame, at + 40, len);
    else if (frame->protocol == 44 && len >= 8)
        read_fragment_header(frame, part_at(capture, at + 40, len));
}

/* ---- the calls ---- */

static struct capture begin(const uint8_t *ptr, size_t captured, size_t len, struct lk_frame *frame)
{
    struct capture capture = {ptr, used_len(captured), used_len(len), 0};
    if (capture.captured > capture.len)
        capture.captured = capture.len;
    memset(frame, 0, sizeof *frame);
    carries(frame, 0, capture.len);
    return capture;
}

/* Reads the packet at `at`, by the EtherType that is stored. */
static void read_carried(const struct capture *capture, struct lk_frame *frame, size_t at)
{
    carries(frame, at, capture->len - at);
    if (frame->ethernet.type == 0x0806)
        read_arp(capture, frame, at);
    else if (frame->ethernet.type == 0x0800)
        read_ipv4(capture, frame, at);
    else if (frame->ethernet.type == 0x86dd)
        read_ipv6(capture, frame, at);
}

/* Stores how many bytes of the payload are there, and returns the reason. */
static int end(const struct capture *capture, struct lk_frame *frame)
{
    frame->payload_captured = part_at(capture, frame->payload_offset, frame->payload_len).known;
    return frame->reason;
}

static int read_ethernet(const struct capture *capture, struct lk_frame *frame)
{
    if (capture->len < 14 || capture->captured < 14) {
        reject(frame, capture->len < 14 ? LK_TOO_SHORT : LK_HEADER_CUT);
        return end(capture, frame);
    }
    memcpy(frame->ethernet.dst, capture->ptr, 6);
    memcpy(frame->ethernet.src, capture->ptr + 6, 6);
    frame->ethernet.type = (uint16_t)get_word(capture->ptr + 12);
    read_carried(capture, frame, 14);
    return end(capture, frame);
}

int model_read_captured(const uint8_t *ptr, size_t captured, size_t len, struct lk_frame *frame)
{
    struct capture capture = begin(ptr, captured, len, frame);
    return read_ethernet(&capture, frame);
}

int model_read_plain(const uint8_t *ptr, size_t len, struct lk_frame *frame)
{
    struct capture capture = begin(ptr, len, len, frame);
    capture.is_plain = 1;
    return read_ethernet(&capture, frame);
}

int model_read_linktype(uint32_t link_type, const uint8_t *ptr, size_t captured, size_t len, struct lk_frame *frame)
{
    struct capture capture = begin(ptr, captured, len, frame);
    struct lk_link link;
    size_t needed = 0;
    int reason = find_link(link_type, ptr, capture.captured, &link, &needed);
    reject(frame, reason == LK_TOO_SHORT && needed <= capture.len ? LK_HEADER_CUT : reason);
    if (reason != LK_READ)
        return end(&capture, frame);
    if (link_type == 1) {
        memcpy(frame->ethernet.dst, ptr, 6);
        memcpy(frame->ethernet.src, ptr + 6, 6);
    }
    frame->ethernet.type = link.type;
    read_carried(&capture, frame, link.offset);
    return end(&capture, frame);
}

/* The version comes before the length, because it tells which header there should be. */
int model_read_captured_packet(const uint8_t *ptr, size_t captured, size_t len, struct lk_frame *frame)
{
    struct capture capture = begin(ptr, captured, len, frame);
    if (capture.captured == 0)
        reject(frame, capture.len == 0 ? LK_TOO_SHORT : LK_HEADER_CUT);
    else if (ptr[0] >> 4 == 4)
        read_ipv4(&capture, frame, 0);
    else if (ptr[0] >> 4 == 6)
        read_ipv6(&capture, frame, 0);
    else
        reject(frame, LK_BAD_VERSION);
    return end(&capture, frame);
}

int model_read_frame(const uint8_t *ptr, size_t len, struct lk_frame *frame)
{
    return model_read_captured(ptr, len, len, frame);
}

int model_read_frame_options(const uint8_t *ptr, size_t len, struct lk_frame *frame, struct lk_tcp_options *options)
{
    int reason = model_read_frame(ptr, len, frame);
    memset(options, 0, sizeof *options);
    if (frame->transport == LK_TCP)
        model_find_tcp_options(ptr + frame->transport_offset, frame->tcp.header_len, options);
    return reason;
}

int model_read_packet(const uint8_t *ptr, size_t len, struct lk_frame *frame)
{
    return model_read_captured_packet(ptr, len, len, frame);
}
