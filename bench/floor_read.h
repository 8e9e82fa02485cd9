/* lk_read_frame, lk_find_tcp_options and both in one by hand: straight code with all checks that the library makes. */
#include <tmmintrin.h>
#include "../include/ip_wire.h"
#include "sums.h"

enum { ETHERNET_LEN = 14, ARP_LEN = 28, IPV4_LEN = 20, IPV6_LEN = 40 };
enum { UDP_LEN = 8, ICMP_LEN = 8, TCP_LEN = 20, MOST_TCP_LEN = 60 };
enum { TYPE_IPV4 = 0x0800, TYPE_ARP = 0x0806, TYPE_IPV6 = 0x86dd };
enum { PROTOCOL_ICMP = 1, PROTOCOL_TCP = 6, PROTOCOL_UDP = 17, PROTOCOL_ICMPV6 = 58 };
enum { PROTOCOL_HOP_BY_HOP, PROTOCOL_ROUTING = 43, PROTOCOL_IPV6_FRAGMENT, PROTOCOL_AUTHENTICATION = 51, PROTOCOL_OPTIONS = 60 };
enum { OPTION_END, OPTION_NONE, OPTION_SIZE, OPTION_SCALE, OPTION_PERMITTED, OPTION_RANGES, OPTION_TIMESTAMP = 8 };

static const uint8_t ethernet_ipv4[8] = {0, 1, 8, 0, 6, 4};

/* Whether a length is at least that many bytes; one above LK_MAX_LEN is none. */
INLINE int reaches(size_t len, size_t least) { return len - least <= LK_MAX_LEN - least; }

#include "floor_options.h"

/* An IP packet that was parsed. Its payload is what the headers after it are parsed from. */
struct packet {
    const uint8_t *header;
    const uint8_t *payload;
    size_t len; /* of the payload */
    int is_ipv4;
    int is_fragment;
    uint8_t protocol;
};

/* Returns an `lk_reason`. */
INLINE int read_ipv4(const uint8_t *ptr, size_t len, struct packet *packet)
{
    if (len < IPV4_LEN)
        return LK_TOO_SHORT;
    if (ptr[0] >> 4 != 4)
        return LK_BAD_VERSION;
    size_t header_len = ptr[0] % 16 * 4, total_len = swap_16(load_16(ptr + 2));
    if (header_len < IPV4_LEN || total_len < header_len || len < total_len)
        return LK_BAD_LENGTH;
    int is_fragment = (load_16(ptr + 6) & swap_16(0x3fff)) != 0;
    *packet = (struct packet){ptr, ptr + header_len, total_len - header_len, 1, is_fragment, ptr[9]};
    return LK_READ;
}

INLINE int ipv4_holds(const struct packet *packet)
{
    size_t len = (size_t)(packet->payload - packet->header);
    return holds(len == IPV4_LEN ? total_of_20(packet->header) : total_apart(packet->header, len));
}

INLINE int read_ipv6(const uint8_t *ptr, size_t len, struct packet *packet)
{
    if (len < IPV6_LEN)
        return LK_TOO_SHORT;
    if (ptr[0] >> 4 != 6)
        return LK_BAD_VERSION;
    size_t payload_len = swap_16(load_16(ptr + 4));
    if (len - IPV6_LEN < payload_len)
        return LK_BAD_LENGTH;
    *packet = (struct packet){ptr, ptr + IPV6_LEN, payload_len, 0, 0, ptr[6]};
    return LK_READ;
}

INLINE int is_arp(const uint8_t *ptr, size_t len)
{
    return len >= ARP_LEN && load_64(ptr) << 16 == load_64(ethernet_ipv4) << 16;
}

INLINE uint64_t addresses_total(const struct packet *packet)
{
    const uint8_t *ptr = packet->header;
    return packet->is_ipv4 ? ipv4_total(load_32(ptr + 12), load_32(ptr + 16)) : ipv6_total(ptr + 8, ptr + 24);
}

/* The verdict on a UDP or TCP checksum that is at `field` of the payload. */
INLINE uint8_t verdict(const struct packet *packet, size_t len, size_t field)
{
    uint64_t pseudo = pseudo_total(addresses_total(packet), packet->protocol, len);
    if (holds(around(pseudo, total(packet->payload, len))))
        return LK_CHECKSUM_VALID;
    return load_16(packet->payload + field) == fold(pseudo) ? LK_CHECKSUM_PARTIAL : LK_CHECKSUM_INVALID;
}

INLINE uint8_t udp_verdict(const struct packet *packet, size_t len)
{
    if (load_16(packet->payload + 6) == 0)
        return packet->is_ipv4 ? LK_CHECKSUM_OMITTED : LK_CHECKSUM_INVALID;
    return verdict(packet, len, 6);
}

/* Whether the checksum of an ICMP message holds: over IPv6 with a pseudo-header. */
INLINE int icmp_holds(const struct packet *packet)
{
    uint64_t sum = total(packet->payload, packet->len);
    if (!packet->is_ipv4)
        sum = around(sum, pseudo_total(addresses_total(packet), PROTOCOL_ICMPV6, packet->len));
    return holds(sum);
}

/* Returns an `lk_reason`, and stores the length of a UDP packet. */
INLINE int read_udp(const struct packet *packet, size_t *len)
{
    if (packet->len < UDP_LEN)
        return LK_TOO_SHORT;
    *len = swap_16(load_16(packet->payload + 4));
    if (*len < UDP_LEN || packet->len < *len)
        return LK_BAD_LENGTH;
    return load_16(packet->payload + 2) ? LK_READ : LK_PORT_ZERO;
}

/* Returns an `lk_reason`, and stores the length of a TCP header, and its options unless `options` is null. */
INLINE int read_tcp(const struct packet *packet, size_t *len, struct lk_tcp_options *options)
{
    const uint8_t *ptr = packet->payload;
    if (packet->len < TCP_LEN)
        return LK_TOO_SHORT;
    *len = ptr[12] / 16 * 4;
    if (*len < TCP_LEN || packet->len < *len)
        return LK_BAD_LENGTH;
    if (!load_16(ptr) || !load_16(ptr + 2))
        return LK_PORT_ZERO;
    if (has_two_controls(ptr[13]))
        return LK_BAD_FLAGS;
    const uint8_t *at = ptr + TCP_LEN, *end = ptr + *len;
    return (options ? read_options(at, end, options) : has_options(at, end)) ? LK_READ : LK_BAD_OPTIONS;
}

/* The next header is at `payload_offset`, and a payload of so many bytes follows it. */
INLINE void follow(struct lk_frame *frame, size_t header_len, size_t payload_len)
{
    frame->payload_offset += header_len;
    frame->payload_len = payload_len;
}

/* The header whose fields are stored is rejected. */
COLD int reject_transport(struct lk_frame *frame, int reason)
{
    frame->rejected = frame->transport;
    frame->transport = LK_NO_TRANSPORT;
    return reason;
}

INLINE int store_udp(const struct packet *packet, struct lk_frame *frame)
{
    size_t len = 0;
    int reason = read_udp(packet, &len);
    if (reason == LK_TOO_SHORT)
        return reason;
    frame->transport = LK_UDP;
    frame->transport_offset = frame->payload_offset;
    frame->src.port = swap_16(load_16(packet->payload));
    frame->dst.port = swap_16(load_16(packet->payload + 2));
    if (reason == LK_BAD_LENGTH)
        return reject_transport(frame, reason);
    frame->transport_checksum = udp_verdict(packet, len);
    if (reason != LK_READ)
        return reject_transport(frame, reason);
    follow(frame, UDP_LEN, len - UDP_LEN);
    return reason;
}

INLINE int store_tcp(const struct packet *packet, struct lk_frame *frame, struct lk_tcp_options *options)
{
    const uint8_t *ptr = packet->payload;
    size_t len = 0;
    int reason = read_tcp(packet, &len, options);
    if (reason == LK_TOO_SHORT)
        return reason;
    frame->transport = LK_TCP;
    frame->transport_offset = frame->payload_offset;
    frame->src.port = swap_16(load_16(ptr));
    frame->dst.port = swap_16(load_16(ptr + 2));
    frame->tcp = (struct lk_tcp){
        .seq_number = swap_32(load_32(ptr + 4)),
        .ack_number = swap_32(load_32(ptr + 8)),
        .window_len = swap_16(load_16(ptr + 14)),
        .urgent_at = swap_16(load_16(ptr + 18)),
        .flags = ptr[13],
        .header_len = (uint8_t)len,
    };
    frame->transport_checksum = verdict(packet, packet->len, 16);
    if (reason != LK_READ)
        return reject_transport(frame, reason);
    follow(frame, len, packet->len - len);
    return reason;
}

INLINE int store_icmp(const struct packet *packet, struct lk_frame *frame)
{
    const uint8_t *ptr = packet->payload;
    if (packet->len < ICMP_LEN)
        return LK_READ;
    frame->transport = LK_ICMP;
    frame->transport_offset = frame->payload_offset;
    frame->icmp = (struct lk_icmp){swap_32(load_32(ptr + 4)), ptr[0], ptr[1]};
    frame->transport_checksum = icmp_holds(packet) ? LK_CHECKSUM_VALID : LK_CHECKSUM_INVALID;
    follow(frame, ICMP_LEN, packet->len - ICMP_LEN);
    return LK_READ;
}

INLINE int store_transport(const struct packet *packet, struct lk_frame *frame, struct lk_tcp_options *options)
{
    if (packet->protocol == PROTOCOL_TCP)
        return store_tcp(packet, frame, options);
    if (packet->protocol == PROTOCOL_UDP)
        return store_udp(packet, frame);
    if (packet->protocol == (packet->is_ipv4 ? PROTOCOL_ICMP : PROTOCOL_ICMPV6))
        return store_icmp(packet, frame);
    return LK_READ;
}

/* Stores the ports of the first fragment of a UDP or TCP packet. */
INLINE void store_first_ports(uint8_t protocol, const uint8_t *ptr, size_t len, struct lk_frame *frame)
{
    if (len < 4 || (protocol != PROTOCOL_TCP && protocol != PROTOCOL_UDP))
        return;
    frame->src.port = swap_16(load_16(ptr));
    frame->dst.port = swap_16(load_16(ptr + 2));
}

INLINE int store_ipv4(const uint8_t *ptr, size_t len, struct lk_frame *frame, struct lk_tcp_options *options)
{
    struct packet packet;
    int reason = read_ipv4(ptr, len, &packet);
    if (reason != LK_READ)
        return reason;
    uint16_t fragment = swap_16(load_16(ptr + 6));
    frame->network = LK_IPV4;
    frame->network_offset = frame->payload_offset;
    memcpy(frame->src.addr.octets, ptr + 12, 4);
    memcpy(frame->dst.addr.octets, ptr + 16, 4);
    frame->src.addr.version = frame->dst.addr.version = 4;
    frame->ip = (struct lk_ip){
        .ident = swap_16(load_16(ptr + 4)),
        .fragment_offset = (uint16_t)(fragment << 3),
        .protocol = ptr[9],
        .hop_limit = ptr[8],
        .dscp = ptr[1] >> 2,
        .ecn = ptr[1] & 3,
        .more_fragments = fragment >> 13 & 1,
        .dont_fragment = fragment >> 14 & 1,
    };
    frame->protocol = ptr[9];
    frame->is_fragment = (uint8_t)packet.is_fragment;
    frame->ipv4_checksum = ipv4_holds(&packet) ? LK_CHECKSUM_VALID : LK_CHECKSUM_INVALID;
    follow(frame, (size_t)(packet.payload - ptr), packet.len);
    if (!packet.is_fragment)
        return store_transport(&packet, frame, options);
    if (!frame->ip.fragment_offset)
        store_first_ports(packet.protocol, packet.payload, packet.len, frame);
    return LK_READ;
}

/* Whether it is the protocol of an extension header. The usual protocols are none. */
INLINE int is_extension(uint8_t protocol)
{
    return protocol <= 60 && 0x1008180000000001 >> protocol & 1;
}

/* The length of the extension header that begins a payload of at least 8 bytes. */
INLINE size_t extension_len(const struct packet *packet)
{
    size_t units = packet->payload[1];
    switch (packet->protocol) {
    case PROTOCOL_IPV6_FRAGMENT:
        return 8;
    case PROTOCOL_AUTHENTICATION:
        return 8 + 4 * units;
    }
    return 8 + 8 * units;
}

/* Returns an `lk_reason`. */
INLINE int extension_reason(const struct packet *packet, size_t len, int is_first)
{
    if (packet->len < len)
        return LK_TOO_SHORT;
    if (packet->protocol == PROTOCOL_ROUTING && packet->payload[3])
        return LK_HOPS_LEFT;
    return packet->protocol == PROTOCOL_HOP_BY_HOP && !is_first ? LK_BAD_ORDER : LK_READ;
}

/* Steps through extension headers, up to one of a fragment. Returns an `lk_reason`. */
static OUTLINE int step_through(struct packet *packet, struct lk_frame *frame)
{
    for (int is_first = 1; is_extension(packet->protocol); is_first = 0) {
        const uint8_t *ptr = packet->payload;
        if (packet->len < 8)
            return LK_TOO_SHORT;
        size_t len = extension_len(packet);
        int reason = extension_reason(packet, len, is_first);
        if (reason != LK_READ)
            return reason;
        if (packet->protocol == PROTOCOL_IPV6_FRAGMENT) {
            uint16_t fragment = swap_16(load_16(ptr + 2));
            frame->is_fragment = (fragment & 0xfff9) != 0;
            frame->ip.fragment_offset = fragment & 0xfff8;
            frame->ip.more_fragments = fragment & 1;
            frame->ip.ident = swap_32(load_32(ptr + 4));
            if (frame->is_fragment) {
                if (!frame->ip.fragment_offset)
                    store_first_ports(ptr[0], ptr + len, packet->len - len, frame);
                return LK_READ;
            }
        }
        frame->protocol = packet->protocol = ptr[0];
        packet->payload += len;
        packet->len -= len;
        follow(frame, len, packet->len);
    }
    return LK_READ;
}

INLINE int store_ipv6(const uint8_t *ptr, size_t len, struct lk_frame *frame, struct lk_tcp_options *options)
{
    struct packet packet;
    int reason = read_ipv6(ptr, len, &packet);
    if (reason != LK_READ)
        return reason;
    uint32_t first = swap_32(load_32(ptr));
    frame->network = LK_IPV6;
    frame->network_offset = frame->payload_offset;
    memcpy(frame->src.addr.octets, ptr + 8, 16);
    memcpy(frame->dst.addr.octets, ptr + 24, 16);
    frame->src.addr.version = frame->dst.addr.version = 6;
    frame->ip = (struct lk_ip){
        .flow_label = first & 0xfffff,
        .protocol = ptr[6],
        .hop_limit = ptr[7],
        .dscp = first >> 22 & 63,
        .ecn = first >> 20 & 3,
    };
    frame->protocol = ptr[6];
    follow(frame, IPV6_LEN, packet.len);
    if (is_extension(packet.protocol)) {
        reason = step_through(&packet, frame);
        if (reason != LK_READ || frame->is_fragment)
            return reason;
    }
    return store_transport(&packet, frame, options);
}

INLINE int store_arp(const uint8_t *ptr, size_t len, struct lk_frame *frame)
{
    if (len < ARP_LEN)
        return LK_TOO_SHORT;
    if (!is_arp(ptr, len))
        return LK_OTHER_ARP;
    frame->network = LK_ARP;
    frame->network_offset = frame->payload_offset;
    frame->arp.operation = swap_16(load_16(ptr + 6));
    memcpy(frame->arp.src_hardware, ptr + 8, 6);
    memcpy(frame->src.addr.octets, ptr + 14, 4);
    memcpy(frame->arp.dst_hardware, ptr + 18, 6);
    memcpy(frame->dst.addr.octets, ptr + 24, 4);
    frame->src.addr.version = frame->dst.addr.version = 4;
    follow(frame, ARP_LEN, 0);
    return LK_READ;
}

INLINE int store_ip(uint16_t type, const uint8_t *ptr, size_t len, struct lk_frame *frame,
                    struct lk_tcp_options *options)
{
    switch (type) {
    case TYPE_IPV4:
        return store_ipv4(ptr, len, frame, options);
    case TYPE_IPV6:
        return store_ipv6(ptr, len, frame, options);
    }
    return LK_READ;
}

/* By nine vectors and a word: for so few bytes compilers use an instruction that starts slowly. */
INLINE void clear(struct lk_frame *frame)
{
    typedef uint64_t pair __attribute__((vector_size(16), may_alias, aligned(8)));
    _Static_assert(sizeof *frame == 10 * sizeof(pair), "ten vectors");
    pair *to = (pair *)frame;
    to[0] = to[1] = to[2] = to[3] = to[4] = to[5] = to[6] = to[7] = to[8] = to[9] = (pair){0};
}

/* By one shuffle of 16 bytes. The last two clear the first field after the header. */
INLINE void store_ethernet(const uint8_t *ptr, struct lk_frame *frame)
{
    _Static_assert(offsetof(struct lk_frame, arp) == offsetof(struct lk_frame, ethernet) + 14, "ARP's operation is cleared");
    const __m128i order = _mm_setr_epi8(6, 7, 8, 9, 10, 11, 0, 1, 2, 3, 4, 5, 13, 12, -1, -1);
    __m128i bytes = _mm_loadu_si128((const __m128i *)ptr);
    _mm_storeu_si128((__m128i *)&frame->ethernet, _mm_shuffle_epi8(bytes, order));
}

INLINE int read_frame(const uint8_t *ptr, size_t len, struct lk_frame *frame, struct lk_tcp_options *options)
{
    clear(frame);
    if (!reaches(len, ETHERNET_LEN)) {
        frame->payload_len = reaches(len, 0) ? len : 0;
        return frame->reason = LK_TOO_SHORT;
    }
    uint16_t type = swap_16(load_16(ptr + 12));
    if (len >= 16) {
        store_ethernet(ptr, frame);
    } else {
        memcpy(frame->ethernet.dst, ptr, 6);
        memcpy(frame->ethernet.src, ptr + 6, 6);
        frame->ethernet.type = type;
    }
    follow(frame, ETHERNET_LEN, len - ETHERNET_LEN);
    if (type == TYPE_ARP) /* apart, so that no registers are saved for it */
        return frame->reason = (uint8_t)store_arp(ptr + ETHERNET_LEN, len - ETHERNET_LEN, frame);
    return frame->reason = (uint8_t)store_ip(type, ptr + ETHERNET_LEN, len - ETHERNET_LEN, frame, options);
}

int lk_read_frame(const uint8_t *ptr, size_t len, struct lk_frame *frame)
{
    int reason = read_frame(ptr, len, frame, NULL);
    frame->payload_captured = frame->payload_len;
    return reason;
}

/* The options before a malformed one were stored. */
int lk_read_frame_options(const uint8_t *ptr, size_t len, struct lk_frame *frame, struct lk_tcp_options *options)
{
    clear_options(options);
    int reason = read_frame(ptr, len, frame, options);
    frame->payload_captured = frame->payload_len;
    if (reason == LK_BAD_OPTIONS)
        clear_options(options);
    return reason;
}
