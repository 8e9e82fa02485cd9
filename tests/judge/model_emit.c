/* The model of writing. */
#include <string.h>
#include "model.h"

/* The failures that apply to a call, by the numbers of LK_FAILURE. The first one in that order counts. */
enum {
    NO_VERSION = 1,
    TWO_VERSIONS,
    BAD_PREFIX,
    NO_PORT,
    NO_HOP_LIMIT,
    BAD_FIELD,
    TWO_CONTROLS,
    OPTIONS_TOO_LONG,
    PAYLOAD_TOO_LONG,
    NO_HEADER,
    NO_ROOM
};

struct failures {
    int applies[NO_ROOM + 1];
};

static ptrdiff_t first_of(const struct failures *failures)
{
    for (int number = 1; number <= NO_ROOM; number++)
        if (failures->applies[number])
            return LK_FAILURE(number);
    return 0;
}

/* A result of `len` bytes. Returns the first failure, or 0. */
static ptrdiff_t with_room(struct failures *failures, size_t len, size_t cap)
{
    failures->applies[NO_ROOM] = len > used_len(cap);
    return first_of(failures);
}

static void check_addrs(struct failures *failures, const struct lk_addr *src, const struct lk_addr *dst)
{
    failures->applies[NO_VERSION] = addr_len(src) == 0 || addr_len(dst) == 0;
    failures->applies[TWO_VERSIONS] = src->version != dst->version;
}

static void check_arp(struct failures *failures, const struct lk_addr *src, const struct lk_addr *dst)
{
    failures->applies[NO_VERSION] = src->version != 4 || dst->version != 4;
}

static void check_ip(struct failures *failures, const struct lk_ip *ip, unsigned version)
{
    int is_bad = ip->dscp > 63 || ip->ecn > 3;
    if (version == 4)
        is_bad = is_bad || ip->ident > 65535 || ip->fragment_offset % 8 != 0;
    else
        is_bad = is_bad || ip->flow_label > 1048575 || ip->ident != 0 || ip->fragment_offset != 0 ||
                 ip->more_fragments != 0;
    failures->applies[NO_HOP_LIMIT] = ip->hop_limit == 0;
    failures->applies[BAD_FIELD] = is_bad;
}

static void check_tcp(struct failures *failures, const struct lk_tcp *tcp, const struct lk_tcp_options *options,
                      const struct lk_endpoint *src, const struct lk_endpoint *dst)
{
    int controls = (tcp->flags & LK_SYN) / LK_SYN + (tcp->flags & LK_FIN) / LK_FIN + (tcp->flags & LK_RST) / LK_RST;
    failures->applies[NO_PORT] = src->port == 0 || dst->port == 0;
    failures->applies[TWO_CONTROLS] = controls > 1;
    failures->applies[OPTIONS_TOO_LONG] = options->sack_range_count > 4 || options_len(options) > 40;
}

/* A whole packet, in a frame or not: it is no fragment, and has the lengths of a header and its payload to say. */
static void check_frame(struct failures *failures, const struct lk_frame *headers, size_t header_len, size_t len)
{
    unsigned version = headers->src.addr.version;
    size_t most = version == 4 ? 65515 : 65535;
    check_addrs(failures, &headers->src.addr, &headers->dst.addr);
    check_ip(failures, &headers->ip, version);
    if (headers->ip.fragment_offset != 0 || headers->ip.more_fragments != 0)
        failures->applies[BAD_FIELD] = 1;
    failures->applies[PAYLOAD_TOO_LONG] = len > most || header_len + len > most;
}

/* ---- headers ---- */

size_t put_ethernet(const struct lk_ethernet *header, unsigned type, uint8_t *out)
{
    memcpy(out, header->dst, 6);
    memcpy(out + 6, header->src, 6);
    put_word(out + 12, type);
    return 14;
}

size_t put_arp(const struct lk_arp *header, const struct lk_addr *src, const struct lk_addr *dst, uint8_t *out)
{
    put_word(out, 1);
    put_word(out + 2, 0x0800);
    out[4] = 6;
    out[5] = 4;
    put_word(out + 6, header->operation);
    memcpy(out + 8, header->src_hardware, 6);
    memcpy(out + 14, src->octets, 4);
    memcpy(out + 18, header->dst_hardware, 6);
    memcpy(out + 24, dst->octets, 4);
    return 28;
}

static size_t put_ipv4(const struct lk_ip *header, const struct lk_addr *src, const struct lk_addr *dst,
                       unsigned protocol, size_t payload_len, int computed, uint8_t *out)
{
    unsigned flags = (header->dont_fragment ? 0x4000 : 0) + (header->more_fragments ? 0x2000 : 0);
    out[0] = 0x45;
    out[1] = (uint8_t)(header->dscp << 2 | header->ecn);
    put_word(out + 2, (unsigned)(20 + payload_len));
    put_word(out + 4, header->ident);
    put_word(out + 6, flags | header->fragment_offset / 8);
    out[8] = header->hop_limit;
    out[9] = (uint8_t)protocol;
    put_word(out + 10, 0);
    memcpy(out + 12, src->octets, 4);
    memcpy(out + 16, dst->octets, 4);
    if (computed)
        put_word(out + 10, 0xffff - model_checksum(out, 20));
    return 20;
}

size_t put_ip(const struct lk_ip *header, const struct lk_addr *src, const struct lk_addr *dst, unsigned protocol,
              size_t payload_len, int computed, uint8_t *out)
{
    if (src->version == 4)
        return put_ipv4(header, src, dst, protocol, payload_len, computed, out);
    put_long(out, 6u << 28 | (uint32_t)header->dscp << 22 | (uint32_t)header->ecn << 20 | header->flow_label);
    put_word(out + 4, (unsigned)payload_len);
    out[6] = (uint8_t)protocol;
    out[7] = header->hop_limit;
    memcpy(out + 8, src->octets, 16);
    memcpy(out + 24, dst->octets, 16);
    return 40;
}

/* RFC 768: a computed 0 is sent as all ones. */
size_t put_udp(const struct lk_endpoint *src, const struct lk_endpoint *dst, const uint8_t *ptr, size_t len,
               int computed, uint8_t *out)
{
    unsigned checksum;
    put_word(out, src->port);
    put_word(out + 2, dst->port);
    put_word(out + 4, (unsigned)(8 + len));
    put_word(out + 6, 0);
    if (len != 0)
        memcpy(out + 8, ptr, len);
    checksum = 0xffff - pseudo_sum(&src->addr, &dst->addr, 17, out, 8 + len, 8 + len);
    if (computed)
        put_word(out + 6, checksum == 0 ? 0xffff : checksum);
    return 8 + len;
}

size_t put_tcp(const struct lk_tcp *header, const struct lk_tcp_options *options, int has_ranges,
               const struct lk_endpoint *src, const struct lk_endpoint *dst, const uint8_t *ptr, size_t len,
               int computed, uint8_t *out)
{
    size_t header_len = 20 + options_len(options), total = header_len + len;
    put_word(out, src->port);
    put_word(out + 2, dst->port);
    put_long(out + 4, header->seq_number);
    put_long(out + 8, header->ack_number);
    out[12] = (uint8_t)(header_len / 4 << 4);
    out[13] = header->flags;
    put_word(out + 14, header->window_len);
    put_word(out + 16, 0);
    put_word(out + 18, header->urgent_at);
    put_options(options, has_ranges, out + 20);
    if (len != 0)
        memcpy(out + header_len, ptr, len);
    if (computed)
        put_word(out + 16, 0xffff - pseudo_sum(&src->addr, &dst->addr, 6, out, total, total));
    return total;
}

size_t put_icmp(const struct lk_icmp *header, const struct lk_addr *src, const struct lk_addr *dst, const uint8_t *ptr,
                size_t len, int computed, uint8_t *out)
{
    out[0] = header->type;
    out[1] = header->code;
    put_word(out + 2, 0);
    put_long(out + 4, header->word);
    if (len != 0)
        memcpy(out + 8, ptr, len);
    if (computed)
        put_word(out + 2, 0xffff - icmp_sum(src, dst, out, 8 + len));
    return 8 + len;
}

/* ---- whole frames and packets ---- */

static size_t ip_header_len(const struct lk_frame *headers)
{
    return headers->src.addr.version == 4 ? 20 : 40;
}

/* The length of an Ethernet header, or of none. */
enum link { PACKET = 0, FRAME = 14 };

static size_t put_headers(const struct lk_frame *headers, enum link link, unsigned protocol, size_t payload_len, uint8_t *out)
{
    unsigned type = headers->src.addr.version == 4 ? 0x0800 : 0x86dd;
    size_t len = link == FRAME ? put_ethernet(&headers->ethernet, type, out) : 0;
    return len + put_ip(&headers->ip, &headers->src.addr, &headers->dst.addr, protocol, payload_len, 1, out + len);
}

static ptrdiff_t udp_failure(const struct lk_frame *headers, enum link link, size_t len, size_t cap)
{
    struct failures failures = {{0}};
    check_frame(&failures, headers, 8, len);
    failures.applies[NO_PORT] = headers->dst.port == 0;
    return with_room(&failures, link + ip_header_len(headers) + 8 + len, cap);
}

static ptrdiff_t tcp_failure(const struct lk_frame *headers, enum link link, const struct lk_tcp_options *options,
                             size_t len, size_t cap)
{
    struct failures failures = {{0}};
    size_t header_len = 20 + options_len(options);
    check_frame(&failures, headers, header_len, len);
    check_tcp(&failures, &headers->tcp, options, &headers->src, &headers->dst);
    return with_room(&failures, link + ip_header_len(headers) + header_len + len, cap);
}

static ptrdiff_t put_whole_udp(const struct lk_frame *headers, enum link link, const uint8_t *ptr, size_t len, uint8_t *out,
                               size_t cap)
{
    ptrdiff_t failure = udp_failure(headers, link, len, cap);
    size_t at;
    if (failure)
        return failure;
    at = put_headers(headers, link, 17, 8 + len, out);
    return (ptrdiff_t)(at + put_udp(&headers->src, &headers->dst, ptr, len, 1, out + at));
}

static ptrdiff_t put_whole_tcp(const struct lk_frame *headers, enum link link, const struct lk_tcp_options *options,
                               const uint8_t *ptr, size_t len, uint8_t *out, size_t cap)
{
    ptrdiff_t failure = tcp_failure(headers, link, options, len, cap);
    size_t at;
    if (failure)
        return failure;
    at = put_headers(headers, link, 6, 20 + options_len(options) + len, out);
    return (ptrdiff_t)(at + put_tcp(&headers->tcp, options, 1, &headers->src, &headers->dst, ptr, len, 1, out + at));
}

static ptrdiff_t put_whole_icmp(const struct lk_frame *headers, enum link link, const uint8_t *ptr, size_t len, uint8_t *out,
                                size_t cap)
{
    struct failures failures = {{0}};
    ptrdiff_t failure;
    size_t at;
    check_frame(&failures, headers, 8, len);
    failure = with_room(&failures, link + ip_header_len(headers) + 8 + len, cap);
    if (failure)
        return failure;
    at = put_headers(headers, link, headers->src.addr.version == 4 ? 1 : 58, 8 + len, out);
    return (ptrdiff_t)(at + put_icmp(&headers->icmp, &headers->src.addr, &headers->dst.addr, ptr, len, 1, out + at));
}

/* A payload in place is moved away, and written as one that is given. */
static ptrdiff_t wrap_whole_udp(const struct lk_frame *headers, enum link link, size_t len, uint8_t *out, size_t cap)
{
    static uint8_t payload[MODEL_ROOM];
    ptrdiff_t failure = udp_failure(headers, link, len, cap);
    if (failure)
        return failure;
    memcpy(payload, out + link + ip_header_len(headers) + 8, len);
    return put_whole_udp(headers, link, payload, len, out, cap);
}

static ptrdiff_t wrap_whole_tcp(const struct lk_frame *headers, enum link link, const struct lk_tcp_options *options,
                                size_t len, uint8_t *out, size_t cap)
{
    static uint8_t payload[MODEL_ROOM];
    ptrdiff_t failure = tcp_failure(headers, link, options, len, cap);
    if (failure)
        return failure;
    memcpy(payload, out + link + ip_header_len(headers) + model_tcp_header_len(options), len);
    return put_whole_tcp(headers, link, options, payload, len, out, cap);
}

/* Each call with Ethernet, and without. */
#define BOTH_LINKS(name, parameters, function, ...)                                                     \
    ptrdiff_t model_##name##_frame parameters { return function(headers, FRAME, __VA_ARGS__, out, cap); }  \
    ptrdiff_t model_##name##_packet parameters { return function(headers, PACKET, __VA_ARGS__, out, cap); }

BOTH_LINKS(emit_udp, (const struct lk_frame *headers, const uint8_t *ptr, size_t len, uint8_t *out, size_t cap),
           put_whole_udp, ptr, len)
BOTH_LINKS(emit_tcp, (const struct lk_frame *headers, const struct lk_tcp_options *options, const uint8_t *ptr, size_t len,
                      uint8_t *out, size_t cap), put_whole_tcp, options, ptr, len)
BOTH_LINKS(emit_icmp, (const struct lk_frame *headers, const uint8_t *ptr, size_t len, uint8_t *out, size_t cap),
           put_whole_icmp, ptr, len)
BOTH_LINKS(wrap_udp, (const struct lk_frame *headers, size_t len, uint8_t *out, size_t cap), wrap_whole_udp, len)
BOTH_LINKS(wrap_tcp, (const struct lk_frame *headers, const struct lk_tcp_options *options, size_t len, uint8_t *out,
                      size_t cap), wrap_whole_tcp, options, len)

ptrdiff_t model_tcp_header_len(const struct lk_tcp_options *options)
{
    size_t len = options_len(options);
    return options->sack_range_count > 4 || len > 40 ? LK_OPTIONS_TOO_LONG : (ptrdiff_t)(20 + len);
}

ptrdiff_t model_emit_arp_frame(const struct lk_frame *headers, uint8_t *out, size_t cap)
{
    struct failures failures = {{0}};
    ptrdiff_t failure;
    check_arp(&failures, &headers->src.addr, &headers->dst.addr);
    failure = with_room(&failures, 42, cap);
    if (failure)
        return failure;
    put_ethernet(&headers->ethernet, 0x0806, out);
    put_arp(&headers->arp, &headers->src.addr, &headers->dst.addr, out + 14);
    return 42;
}

/* ---- layers ---- */

ptrdiff_t model_emit_ethernet(const struct lk_ethernet *header, uint8_t *out, size_t cap)
{
    struct failures failures = {{0}};
    ptrdiff_t failure = with_room(&failures, 14, cap);
    return failure ? failure : (ptrdiff_t)put_ethernet(header, header->type, out);
}

ptrdiff_t model_emit_arp(const struct lk_arp *header, const struct lk_addr *src, const struct lk_addr *dst,
                         uint8_t *out, size_t cap)
{
    struct failures failures = {{0}};
    ptrdiff_t failure;
    check_arp(&failures, src, dst);
    failure = with_room(&failures, 28, cap);
    return failure ? failure : (ptrdiff_t)put_arp(header, src, dst, out);
}

ptrdiff_t model_emit_ip(const struct lk_ip *header, const struct lk_addr *src, const struct lk_addr *dst,
                        size_t payload_len, int computed, uint8_t *out, size_t cap)
{
    struct failures failures = {{0}};
    ptrdiff_t failure;
    check_addrs(&failures, src, dst);
    check_ip(&failures, header, src->version);
    failures.applies[PAYLOAD_TOO_LONG] = payload_len > (src->version == 4 ? 65515 : 65535);
    failure = with_room(&failures, src->version == 4 ? 20 : 40, cap);
    return failure ? failure : (ptrdiff_t)put_ip(header, src, dst, header->protocol, payload_len, computed, out);
}

ptrdiff_t model_emit_udp(const struct lk_endpoint *src, const struct lk_endpoint *dst, const uint8_t *ptr,
                         size_t len, int computed, uint8_t *out, size_t cap)
{
    struct failures failures = {{0}};
    ptrdiff_t failure;
    check_addrs(&failures, &src->addr, &dst->addr);
    failures.applies[NO_PORT] = dst->port == 0;
    failures.applies[PAYLOAD_TOO_LONG] = len > 65527;
    failure = with_room(&failures, 8 + len, cap);
    return failure ? failure : (ptrdiff_t)put_udp(src, dst, ptr, len, computed, out);
}

ptrdiff_t model_emit_tcp(const struct lk_tcp *header, const struct lk_tcp_options *options,
                         const struct lk_endpoint *src, const struct lk_endpoint *dst, const uint8_t *ptr,
                         size_t len, int computed, uint8_t *out, size_t cap)
{
    struct failures failures = {{0}};
    size_t header_len = 20 + options_len(options);
    ptrdiff_t failure;
    check_addrs(&failures, &src->addr, &dst->addr);
    check_tcp(&failures, header, options, src, dst);
    failures.applies[PAYLOAD_TOO_LONG] = len > 65535 || header_len + len > 65535;
    failure = with_room(&failures, header_len + len, cap);
    return failure ? failure : (ptrdiff_t)put_tcp(header, options, 1, src, dst, ptr, len, computed, out);
}

ptrdiff_t model_emit_icmp(const struct lk_icmp *header, const struct lk_addr *src, const struct lk_addr *dst,
                          const uint8_t *ptr, size_t len, int computed, uint8_t *out, size_t cap)
{
    struct failures failures = {{0}};
    ptrdiff_t failure;
    check_addrs(&failures, src, dst);
    failures.applies[PAYLOAD_TOO_LONG] = len > 65527;
    failure = with_room(&failures, 8 + len, cap);
    return failure ? failure : (ptrdiff_t)put_icmp(header, src, dst, ptr, len, computed, out);
}
