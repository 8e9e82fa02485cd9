/* The calls of include/ip_wire.h on packets, by hand: straight code with all checks that they make, to see how far the
 * machine goes. bench/bench.py builds it as a shared library, for the processors that the library needs. */
#include "floor_route.h"

uint16_t lk_checksum(const uint8_t *ptr, size_t len)
{
    if (len >= LONG)
        return len > LK_MAX_LEN ? 0 : swap_16(fold(total_of_many(ptr, len)));
    if (len != 20)
        return swap_16(fold(total(ptr, len)));
    return swap_16(fold(total_of_20(ptr)));
}

/* Of two addresses of one version that is known. */
INLINE uint64_t endpoints_total(const struct lk_addr *src, const struct lk_addr *dst)
{
    if (src->version == 4)
        return ipv4_total(load_32(src->octets), load_32(dst->octets));
    return ipv6_total(src->octets, dst->octets);
}

ptrdiff_t lk_emit_ethernet(const struct lk_ethernet *header, uint8_t *out, size_t cap)
{
    if (!reaches(cap, ETHERNET_LEN))
        return LK_NO_ROOM;
    memcpy(out, header->dst, 6);
    memcpy(out + 6, header->src, 6);
    store_16(out + 12, swap_16(header->type));
    return ETHERNET_LEN;
}

ptrdiff_t lk_emit_arp(const struct lk_arp *header, const struct lk_addr *src, const struct lk_addr *dst, uint8_t *out,
                      size_t cap)
{
    if (!reaches(cap, ARP_LEN) || src->version != 4 || dst->version != 4)
        return arp_failure(src, dst);
    memcpy(out, ethernet_ipv4, 6);
    store_16(out + 6, swap_16(header->operation));
    memcpy(out + 8, header->src_hardware, 6);
    memcpy(out + 14, src->octets, 4);
    memcpy(out + 18, header->dst_hardware, 6);
    memcpy(out + 24, dst->octets, 4);
    return ARP_LEN;
}

/* Writes an IPv4 header; addresses are as they are in memory. */
INLINE void write_ipv4(const struct lk_ip *ip, uint32_t src, uint32_t dst, uint8_t protocol, size_t payload_len,
                       int computed, uint8_t *out)
{
    uint16_t flags = (uint16_t)((ip->dont_fragment ? 0x4000 : 0) | (ip->more_fragments ? 0x2000 : 0) | ip->fragment_offset / 8);
    uint64_t lengths = 0x45 | (uint64_t)(ip->dscp << 2 | ip->ecn) << 8 | (uint64_t)swap_16((uint16_t)(IPV4_LEN + payload_len)) << 16
                       | (uint64_t)swap_16((uint16_t)ip->ident) << 32 | (uint64_t)swap_16(flags) << 48;
    uint64_t rest = ip->hop_limit | (uint64_t)protocol << 8 | (uint64_t)src << 32;
    if (computed)
        rest |= (uint64_t)(uint16_t)~fold(around(around(lengths, rest), dst)) << 16;
    store_64(out, lengths);
    store_64(out + 8, rest);
    store_32(out + 16, dst);
}

INLINE void write_ipv6(const struct lk_ip *ip, const uint8_t *src, const uint8_t *dst, uint8_t protocol,
                       size_t payload_len, uint8_t *out)
{
    uint32_t first = 6u << 28 | (uint32_t)ip->dscp << 22 | (uint32_t)ip->ecn << 20 | ip->flow_label;
    uint64_t len = swap_16((uint16_t)payload_len);
    store_64(out, swap_32(first) | len << 32 | (uint64_t)protocol << 48 | (uint64_t)ip->hop_limit << 56);
    memcpy(out + 8, src, 16);
    memcpy(out + 24, dst, 16);
}

INLINE void write_ip(const struct lk_ip *ip, const struct lk_addr *src, const struct lk_addr *dst, uint8_t protocol,
                     size_t payload_len, int computed, uint8_t *out)
{
    if (src->version == 4)
        write_ipv4(ip, load_32(src->octets), load_32(dst->octets), protocol, payload_len, computed, out);
    else
        write_ipv6(ip, src->octets, dst->octets, protocol, payload_len, out);
}

ptrdiff_t lk_emit_ip(const struct lk_ip *header, const struct lk_addr *src, const struct lk_addr *dst,
                     size_t payload_len, int computed, uint8_t *out, size_t cap)
{
    if (!is_one_version(src, dst) || !fits(header, src->version) || payload_len > most_payload(src->version)
        || !reaches(cap, ip_len(src->version)))
        return ip_failure(header, src, dst, payload_len);
    write_ip(header, src, dst, header->protocol, payload_len, computed, out);
    return (ptrdiff_t)ip_len(src->version);
}

INLINE uint32_t ports(uint16_t src, uint16_t dst) { return swap_16(src) | (uint32_t)swap_16(dst) << 16; }

/* Writes a UDP header before a payload with this total; the ports are as they are in memory. */
INLINE void write_udp(uint32_t both, uint64_t addresses, size_t len, uint64_t of_payload, int computed, uint8_t *out)
{
    uint64_t header = both | (uint64_t)swap_16((uint16_t)(UDP_LEN + len)) << 32;
    if (computed) {
        uint64_t pseudo = pseudo_total(addresses, PROTOCOL_UDP, UDP_LEN + len);
        uint16_t sum = fold(around(around(pseudo, header), of_payload));
        header |= (uint64_t)(sum == 0xffff ? sum : (uint16_t)~sum) << 48;
    }
    store_64(out, header);
}

ptrdiff_t lk_emit_udp(const struct lk_endpoint *src, const struct lk_endpoint *dst, const uint8_t *ptr, size_t len,
                      int computed, uint8_t *out, size_t cap)
{
    if (!is_one_version(&src->addr, &dst->addr) || !dst->port || len > 65535 - UDP_LEN || !reaches(cap, UDP_LEN + len))
        return short_failure(&src->addr, &dst->addr, dst->port != 0, len);
    uint64_t of_payload = computed ? total(ptr, len) : 0;
    memcpy(out + UDP_LEN, ptr, len);
    write_udp(ports(src->port, dst->port), endpoints_total(&src->addr, &dst->addr), len, of_payload, computed, out);
    return (ptrdiff_t)(UDP_LEN + len);
}

ptrdiff_t lk_tcp_header_len(const struct lk_tcp_options *options)
{
    if (options->sack_range_count > 4 || tcp_len(options) > MOST_TCP_LEN)
        return LK_OPTIONS_TOO_LONG;
    return (ptrdiff_t)tcp_len(options);
}

/* Adds the total of some bytes that begin at an even or an odd place. */
INLINE uint64_t add_at(uint64_t sum, uint64_t piece, size_t is_odd)
{
    return around(sum, is_odd & 1 ? piece << 8 | piece >> 56 : piece);
}

/* Writes two numbers, and returns their total. */
INLINE uint64_t write_pair(const uint32_t *numbers, uint8_t *out)
{
    uint64_t both = load_64((const uint8_t *)numbers);
    both = __builtin_bswap64(both << 32 | both >> 32);
    store_64(out, both);
    return both;
}

/* Writes the option with SACK ranges, and returns its total. */
INLINE uint64_t write_ranges(const struct lk_tcp_options *options, uint8_t *out)
{
    uint64_t sum = OPTION_RANGES | (2 + 8 * (unsigned)options->sack_range_count) << 8;
    store_16(out, (uint16_t)sum);
    out += 2;
    for (size_t i = 0; i < options->sack_range_count; i++, out += 8)
        sum = around(sum, write_pair(&options->sack_ranges[i].left, out));
    return sum;
}

/* Writes options, and zeros after them, and returns their total. */
INLINE uint64_t write_options(const struct lk_tcp_options *options, uint8_t *const first, const uint8_t *end)
{
    uint8_t *out = first;
    uint64_t sum = 0;
    size_t is_odd = 0;
    if (first == end)
        return 0;
    if (options->has_mss) {
        sum = OPTION_SIZE | 4 << 8 | (uint32_t)swap_16(options->mss) << 16;
        store_32(out, (uint32_t)sum);
        out += 4;
    }
    if (options->has_window_scale) {
        store_16(out, OPTION_SCALE | 3 << 8);
        out[2] = options->window_scale;
        sum += OPTION_SCALE | 3 << 8 | (uint32_t)options->window_scale << 16;
        is_odd = 1;
        out += 3;
    }
    if (options->sack_permitted) {
        store_16(out, OPTION_PERMITTED | 2 << 8);
        sum = add_at(sum, OPTION_PERMITTED | 2 << 8, is_odd);
        out += 2;
    } else if (options->sack_range_count) {
        sum = add_at(sum, write_ranges(options, out), is_odd);
        out += 2 + 8 * options->sack_range_count;
    }
    if (options->has_timestamp) {
        store_16(out, OPTION_TIMESTAMP | 10 << 8);
        sum = add_at(sum, around(OPTION_TIMESTAMP | 10 << 8, write_pair(&options->tsval, out + 2)), is_odd);
        out += 10;
    }
    while (out != end)
        *out++ = 0;
    return sum;
}

/* Writes a TCP header before its options, where this is the total of the options and the payload. */
INLINE void write_tcp(const struct lk_tcp *tcp, uint32_t both, uint64_t addresses, size_t header_len, size_t len,
                      uint64_t of_rest, int computed, uint8_t *out)
{
    uint64_t front = both | (uint64_t)swap_32(tcp->seq_number) << 32;
    uint64_t back = swap_32(tcp->ack_number) | header_len << 34 | (uint64_t)tcp->flags << 40
                    | (uint64_t)swap_16(tcp->window_len) << 48;
    uint32_t urgent = (uint32_t)swap_16(tcp->urgent_at) << 16;
    uint16_t checksum = 0;
    if (computed) {
        uint64_t pseudo = pseudo_total(addresses, PROTOCOL_TCP, header_len + len);
        uint64_t header = around(around(front, back), urgent);
        checksum = (uint16_t)~fold(around(around(pseudo, header), of_rest));
    }
    store_64(out, front);
    store_64(out + 8, back);
    store_32(out + 16, checksum | urgent);
}

ptrdiff_t lk_emit_tcp(const struct lk_tcp *header, const struct lk_tcp_options *options, const struct lk_endpoint *src,
                      const struct lk_endpoint *dst, const uint8_t *ptr, size_t len, int computed, uint8_t *out, size_t cap)
{
    size_t header_len = tcp_len(options);
    if (!is_one_version(&src->addr, &dst->addr) || !src->port || !dst->port || !fits_tcp(header, options)
        || len > 65535 - header_len || !reaches(cap, header_len + len))
        return tcp_failure(header, options, src, dst, len);
    uint64_t of_rest = computed ? total(ptr, len) : 0;
    memcpy(out + header_len, ptr, len);
    of_rest = around(of_rest, write_options(options, out + TCP_LEN, out + header_len));
    write_tcp(header, ports(src->port, dst->port), endpoints_total(&src->addr, &dst->addr), header_len, len, of_rest,
              computed, out);
    return (ptrdiff_t)(header_len + len);
}

INLINE void write_link(const struct lk_frame *headers, uint16_t type, uint8_t *out)
{
    memcpy(out, headers->ethernet.dst, 6);
    memcpy(out + 6, headers->ethernet.src, 6);
    store_16(out + 12, swap_16(type));
}

/* Writes the Ethernet and IP headers of a frame, for a transport of so many bytes. */
INLINE void write_front(const struct lk_frame *headers, uint8_t protocol, size_t len, uint8_t *out)
{
    write_link(headers, headers->src.addr.version == 4 ? TYPE_IPV4 : TYPE_IPV6, out);
    write_ip(&headers->ip, &headers->src.addr, &headers->dst.addr, protocol, len, 1, out + ETHERNET_LEN);
}

/* Where the transport header begins, or 0 if there can be no such frame. */
INLINE size_t transport_at(const struct lk_frame *headers, size_t header_len, size_t len, size_t cap)
{
    uint16_t version = headers->src.addr.version;
    if (!is_one_version(&headers->src.addr, &headers->dst.addr) || !fits_whole(&headers->ip, version))
        return 0;
    size_t at = ETHERNET_LEN + ip_len(version);
    if (len > most_payload(version) - header_len || !reaches(cap, at + header_len + len))
        return 0;
    return at;
}

INLINE ptrdiff_t write_udp_frame(const struct lk_frame *headers, const uint8_t *ptr, size_t len, uint8_t *out, size_t cap)
{
    size_t at = transport_at(headers, UDP_LEN, len, cap);
    if (!at || !headers->dst.port)
        return short_frame_failure(headers, headers->dst.port != 0, len);
    uint64_t of_payload = total(ptr ? ptr : out + at + UDP_LEN, len);
    if (ptr)
        memcpy(out + at + UDP_LEN, ptr, len);
    write_udp(ports(headers->src.port, headers->dst.port), endpoints_total(&headers->src.addr, &headers->dst.addr), len,
              of_payload, 1, out + at);
    write_front(headers, PROTOCOL_UDP, UDP_LEN + len, out);
    return (ptrdiff_t)(at + UDP_LEN + len);
}

ptrdiff_t lk_emit_udp_frame(const struct lk_frame *headers, const uint8_t *ptr, size_t len, uint8_t *out, size_t cap)
{
    return write_udp_frame(headers, ptr, len, out, cap);
}

ptrdiff_t lk_wrap_udp_frame(const struct lk_frame *headers, size_t len, uint8_t *out, size_t cap)
{
    return write_udp_frame(headers, NULL, len, out, cap);
}

INLINE ptrdiff_t write_tcp_frame(const struct lk_frame *headers, const struct lk_tcp_options *options, const uint8_t *ptr,
                                 size_t len, uint8_t *out, size_t cap)
{
    if (!fits_tcp(&headers->tcp, options))
        return tcp_frame_failure(headers, options, len);
    size_t header_len = tcp_len(options), at = transport_at(headers, header_len, len, cap);
    if (!at || !headers->src.port || !headers->dst.port)
        return tcp_frame_failure(headers, options, len);
    uint64_t of_rest = total(ptr ? ptr : out + at + header_len, len);
    if (ptr)
        memcpy(out + at + header_len, ptr, len);
    of_rest = around(of_rest, write_options(options, out + at + TCP_LEN, out + at + header_len));
    write_tcp(&headers->tcp, ports(headers->src.port, headers->dst.port),
              endpoints_total(&headers->src.addr, &headers->dst.addr), header_len, len, of_rest, 1, out + at);
    write_front(headers, PROTOCOL_TCP, header_len + len, out);
    return (ptrdiff_t)(at + header_len + len);
}

ptrdiff_t lk_emit_tcp_frame(const struct lk_frame *headers, const struct lk_tcp_options *options, const uint8_t *ptr,
                            size_t len, uint8_t *out, size_t cap)
{
    return write_tcp_frame(headers, options, ptr, len, out, cap);
}

ptrdiff_t lk_wrap_tcp_frame(const struct lk_frame *headers, const struct lk_tcp_options *options, size_t len, uint8_t *out,
                            size_t cap)
{
    return write_tcp_frame(headers, options, NULL, len, out, cap);
}

ptrdiff_t lk_emit_arp_frame(const struct lk_frame *headers, uint8_t *out, size_t cap)
{
    const struct lk_arp *arp = &headers->arp;
    if (!reaches(cap, ETHERNET_LEN + ARP_LEN) || headers->src.addr.version != 4 || headers->dst.addr.version != 4)
        return arp_failure(&headers->src.addr, &headers->dst.addr);
    /* `src` and `dst` become the Ethernet header, with the first two bytes of ARP. */
    const __m128i order = _mm_setr_epi8(6, 7, 8, 9, 10, 11, 0, 1, 2, 3, 4, 5, -1, -1, -1, -1);
    const __m128i type = _mm_setr_epi8(0, 0, 0, 0, 0, 0, 0, 0, 0, 0, 0, 0, 8, 6, 0, 1);
    __m128i link = _mm_loadu_si128((const __m128i *)&headers->ethernet);
    _mm_storeu_si128((__m128i *)out, _mm_or_si128(_mm_shuffle_epi8(link, order), type));
    store_64(out + 16, 0x04060008 | (uint64_t)swap_16(arp->operation) << 32);
    memcpy(out + 22, arp->src_hardware, 6);
    memcpy(out + 28, headers->src.addr.octets, 4);
    memcpy(out + 32, arp->dst_hardware, 6);
    memcpy(out + 38, headers->dst.addr.octets, 4);
    return ETHERNET_LEN + ARP_LEN;
}

int lk_contains(const struct lk_prefix *block, const struct lk_addr *addr)
{
    uint32_t versions = (uint32_t)block->addr.version << 16 | addr->version;
    uint64_t prefix_len = block->prefix_len;
    if (versions == 0x00040004) {
        uint64_t differs = (uint64_t)swap_32(load_32(block->addr.octets) ^ load_32(addr->octets)) << 32;
        return (prefix_len <= 32) & ((differs >> 1 >> ((63 - prefix_len) & 63)) == 0); /* for 0 the shift is 64 */
    }
    if (versions != 0x00060006 || prefix_len > 128)
        return 0;
    uint64_t high = __builtin_bswap64(load_64(block->addr.octets) ^ load_64(addr->octets));
    if (prefix_len <= 64)
        return !prefix_len || high >> ((64 - prefix_len) & 63) == 0;
    uint64_t low = __builtin_bswap64(load_64(block->addr.octets + 8) ^ load_64(addr->octets + 8));
    return (high | low >> (128 - prefix_len)) == 0;
}

/* What writes after `at` bytes returns where it ends, or 0 if that is past `cap`. */
INLINE size_t copy(const uint8_t *ptr, size_t len, uint8_t *out, size_t cap, size_t at)
{
    if (cap < at + len)
        return 0;
    memcpy(out + at, ptr, len);
    return at + len;
}

/* A packet with a right checksum is built again as it is. */
INLINE size_t rebuild_udp(const struct packet *packet, size_t len, uint8_t checksum, uint8_t *out, size_t cap, size_t at)
{
    size_t end = copy(packet->payload, len, out, cap, at);
    if (end && checksum == LK_CHECKSUM_OMITTED)
        write_udp(load_32(packet->payload), addresses_total(packet), len - UDP_LEN,
                  total(packet->payload + UDP_LEN, len - UDP_LEN), 1, out + at);
    return end;
}

/* The flags that a rebuilt segment keeps. */
INLINE uint8_t kept_flags(uint8_t flags)
{
    return flags & (flags & (LK_SYN | LK_FIN | LK_RST) ? LK_SYN | LK_FIN | LK_RST | LK_ACK : LK_PSH | LK_ACK);
}

INLINE size_t rebuild_tcp(const struct packet *packet, size_t len, uint64_t of_payload, uint8_t *out, size_t cap, size_t at)
{
    const uint8_t *ptr = packet->payload;
    struct lk_tcp_options options;
    struct lk_tcp tcp = {
        .seq_number = swap_32(load_32(ptr + 4)),
        .ack_number = ptr[13] & LK_ACK ? swap_32(load_32(ptr + 8)) : 0,
        .window_len = swap_16(load_16(ptr + 14)),
        .flags = kept_flags(ptr[13]),
    };
    /* Without options the header keeps its length. So does one with a timestamp after two NOPs: they become zeros after
     * the timestamp. */
    if (len == TCP_LEN || is_stamp_alone(ptr + TCP_LEN, ptr + len)) {
        size_t end = copy(ptr + len, packet->len - len, out, cap, at + len);
        if (!end)
            return 0;
        if (len != TCP_LEN) {
            uint64_t both = load_64(ptr + TCP_LEN + 4);
            store_32(out + at + TCP_LEN, 0x0a08 | (uint32_t)both << 16);
            store_64(out + at + TCP_LEN + 4, both >> 16);
            of_payload = around(of_payload, around(both, 0x0a08));
        }
        write_tcp(&tcp, load_32(ptr), addresses_total(packet), len, packet->len - len, of_payload, 1, out + at);
        return end;
    }
    read_options(ptr + TCP_LEN, ptr + len, &options);
    size_t header_len = tcp_len(&options), end = copy(ptr + len, packet->len - len, out, cap, at + header_len);
    if (!(ptr[13] & LK_ACK))
        options.sack_range_count = 0; /* zeros take their place */
    if (!end)
        return 0;
    of_payload = around(of_payload, write_options(&options, out + at + TCP_LEN, out + at + header_len));
    write_tcp(&tcp, load_32(ptr), addresses_total(packet), header_len, packet->len - len, of_payload, 1, out + at);
    return end;
}

INLINE size_t rebuild_transport(const struct packet *packet, uint8_t *out, size_t cap, size_t at)
{
    size_t len;
    if (packet->protocol == PROTOCOL_UDP && read_udp(packet, &len) == LK_READ) {
        uint8_t checksum = udp_verdict(packet, len);
        if (checksum == LK_CHECKSUM_VALID || checksum == LK_CHECKSUM_OMITTED)
            return rebuild_udp(packet, len, checksum, out, cap, at);
    }
    if (packet->protocol == PROTOCOL_TCP && read_tcp(packet, &len, NULL) == LK_READ) {
        uint64_t pseudo = pseudo_total(addresses_total(packet), packet->protocol, packet->len);
        uint64_t of_payload = total(packet->payload + len, packet->len - len);
        if (holds(around(around(pseudo, total_of_words(packet->payload, len)), of_payload)))
            return rebuild_tcp(packet, len, of_payload, out, cap, at);
    }
    return copy(packet->payload, packet->len, out, cap, at);
}

INLINE size_t rebuild_ipv4(const uint8_t *ptr, size_t len, uint8_t *out, size_t cap)
{
    enum { AT = ETHERNET_LEN + IPV4_LEN };
    struct packet packet;
    if (read_ipv4(ptr, len, &packet) != LK_READ || !ipv4_holds(&packet) || packet.is_fragment)
        return copy(ptr, len, out, cap, ETHERNET_LEN);
    size_t end = rebuild_transport(&packet, out, cap, AT);
    if (end)
        write_ipv4(&(struct lk_ip){.hop_limit = ptr[8], .dont_fragment = 1}, load_32(ptr + 12), load_32(ptr + 16), ptr[9],
                   end - AT, 1, out + ETHERNET_LEN);
    return end;
}

INLINE size_t rebuild_ipv6(const uint8_t *ptr, size_t len, uint8_t *out, size_t cap)
{
    enum { AT = ETHERNET_LEN + IPV6_LEN };
    struct packet packet;
    if (read_ipv6(ptr, len, &packet) != LK_READ)
        return copy(ptr, len, out, cap, ETHERNET_LEN);
    size_t end = rebuild_transport(&packet, out, cap, AT);
    if (end)
        write_ipv6(&(struct lk_ip){.hop_limit = ptr[7]}, ptr + 8, ptr + 24, ptr[6], end - AT, out + ETHERNET_LEN);
    return end;
}

ptrdiff_t lk_rebuild(const uint8_t *ptr, size_t len, uint8_t *out, size_t cap)
{
    if (!reaches(len, ETHERNET_LEN))
        return LK_NO_HEADER;
    if (!reaches(cap, ETHERNET_LEN))
        return LK_NO_ROOM;
    const uint8_t *payload = ptr + ETHERNET_LEN;
    uint16_t type = swap_16(load_16(ptr + 12));
    size_t end;
    len -= ETHERNET_LEN;
    if (type == TYPE_IPV4)
        end = rebuild_ipv4(payload, len, out, cap);
    else if (type == TYPE_IPV6)
        end = rebuild_ipv6(payload, len, out, cap);
    else
        end = copy(payload, type == TYPE_ARP && is_arp(payload, len) ? ARP_LEN : len, out, cap, ETHERNET_LEN);
    if (!end)
        return LK_NO_ROOM;
    memcpy(out, ptr, ETHERNET_LEN);
    return (ptrdiff_t)end;
}

#include "floor_icmp.h"
#include "floor_edit.h"
#include "floor_host.h"
#include "floor_link.h"
#include "floor_nat.h"
#include "floor_print.h"
