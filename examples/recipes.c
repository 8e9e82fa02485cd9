/* Short answers to what people ask of a packet library. docs/C.md shows them. Each function is one recipe. */
#include <ip_wire.h>
#include <stdio.h>
#include <string.h>

static struct lk_addr addr_of(const char *text)
{
    struct lk_addr addr = {{0}, 0};
    lk_parse_addr(text, strlen(text), &addr);
    return addr;
}

static void print(const char *what, const uint8_t *ptr, ptrdiff_t len)
{
    char line[LK_FRAME_TEXT];
    struct lk_frame f;
    if (len < 0) {
        printf("%s: %s\n", what, lk_failure_name(len));
        return;
    }
    lk_read_frame(ptr, (size_t)len, &f);
    lk_print_frame(&f, line, sizeof line);
    printf("%s: %s\n", what, line);
}

/* Whether the library that runs is of the version of the header, and runs on this processor. */
static int is_usable(void)
{
    return lk_cpu_supported() && lk_version() >> 8 == (LK_VERSION_MAJOR << 8 | LK_VERSION_MINOR);
}

/* Where the payload of a UDP packet over IPv4 begins in its frame. */
enum { UDP_PAYLOAD = LK_ETHERNET_HEADER_LEN + LK_IPV4_HEADER_LEN + LK_UDP_HEADER_LEN };

/* Writes a UDP packet whose payload was put at UDP_PAYLOAD of `out`, as by `read`. */
static ptrdiff_t write_around(size_t payload_len, uint8_t *out, size_t cap)
{
    struct lk_frame headers = {.ethernet = {{2, 0, 0, 0, 0, 1}, {2, 0, 0, 0, 0, 2}, 0},
                               .ip = {.hop_limit = 64, .dont_fragment = 1}};
    headers.src = (struct lk_endpoint){addr_of("192.0.2.1"), 4000};
    headers.dst = (struct lk_endpoint){addr_of("192.0.2.2"), 53};
    return lk_wrap_udp_frame(&headers, payload_len, out, cap);
}

/* The value of a UDP checksum: 0xffff less the sum of pseudo-header, header and payload. The library computes it. */
static unsigned udp_checksum(uint8_t *frame, size_t len)
{
    struct lk_frame f;
    if (!lk_fill_checksum(frame, len) || lk_read_frame(frame, len, &f) != LK_READ || f.transport != LK_UDP)
        return 0;
    return (unsigned)(frame[f.transport_offset + 6] << 8 | frame[f.transport_offset + 7]);
}

/* Changes address, port, priority and hop limit in place. All checksums are updated. */
static int redirect(uint8_t *frame, size_t len)
{
    const struct lk_addr dst = addr_of("198.51.100.7");
    return lk_set_addr(frame, len, LK_DESTINATION, &dst) && lk_set_port(frame, len, LK_DESTINATION, 5353) &&
           lk_set_dscp(frame, len, 46) && lk_set_hop_limit(frame, len, 63);
}

/* The same for a frame of a virtio device. Its header says whether the checksum is left to the device: the flag
 * VIRTIO_NET_HDR_F_NEEDS_CSUM, 1. Then nothing is guessed. */
static int redirect_virtio(uint8_t *frame, size_t len, unsigned flags)
{
    const struct lk_addr dst = addr_of("198.51.100.8");
    const int offload = flags & 1 ? LK_OFFLOADED : LK_COMPLETE;
    lk_clamp_mss_as(frame, len, 1360, offload);
    return lk_set_addr_as(frame, len, LK_DESTINATION, &dst, offload) &&
           lk_set_port_as(frame, len, LK_DESTINATION, 5354, offload) &&
           lk_set_bytes_as(frame, len, len - 1, (const uint8_t *)"!", 1, offload);
}

/* Lowers the hop limit of a packet of a TUN device, which was read to `buffer + LK_ETHERNET_HEADER_LEN`. Edits need an
 * Ethernet header before the packet: lk_read_linktype stores its type, and the addresses are 0. */
static int lower_hop_limit(uint8_t *buffer, size_t len)
{
    struct lk_frame f;
    uint8_t *packet = buffer + LK_ETHERNET_HEADER_LEN;
    if (lk_read_linktype(LK_LINKTYPE_RAW, packet, len, len, &f) != LK_READ || f.ip.hop_limit < 2)
        return 0;
    lk_emit_ethernet(&f.ethernet, buffer, LK_ETHERNET_HEADER_LEN);
    return lk_set_hop_limit(buffer, LK_ETHERNET_HEADER_LEN + len, (uint8_t)(f.ip.hop_limit - 1));
}

/* Source NAT of one packet, without a table. */
static int hide_source(uint8_t *frame, size_t len)
{
    const struct lk_endpoint outside = {addr_of("203.0.113.9"), 62000};
    return lk_translate(frame, len, LK_SOURCE, &outside);
}

/* Updates checksums for code that writes its own headers: another destination of UDP over IPv4, and hop limit 63. */
static void update(uint16_t *ipv4_checksum, uint16_t *udp_checksum, const struct lk_endpoint *before,
                   const struct lk_endpoint *after)
{
    *ipv4_checksum = lk_update_checksum_addr(*ipv4_checksum, &before->addr, &after->addr);
    /* the word of hop limit and protocol */
    *ipv4_checksum = lk_update_checksum(*ipv4_checksum, 64 << 8 | LK_PROTOCOL_UDP, 63 << 8 | LK_PROTOCOL_UDP);
    *udp_checksum = lk_update_udp_checksum_addr(*udp_checksum, &before->addr, &after->addr);
    *udp_checksum = lk_update_udp_checksum(*udp_checksum, before->port, after->port);
}

/* Changes payload bytes in place. */
static int replace(uint8_t *frame, size_t len, const char *text)
{
    struct lk_frame f;
    if (lk_read_frame(frame, len, &f) != LK_READ || f.payload_len < strlen(text))
        return 0;
    return lk_set_bytes(frame, len, f.payload_offset, (const uint8_t *)text, strlen(text));
}

/* Adds a VLAN tag (IEEE 802.1Q). `frame` has room for 4 bytes more. Returns the new length. */
static size_t add_tag(uint8_t *frame, size_t len, unsigned vlan)
{
    if (len < LK_ETHERNET_HEADER_LEN)
        return len;
    memmove(frame + 16, frame + 12, len - 12);
    memcpy(frame + 12, (uint8_t[]){LK_ETHERTYPE_VLAN >> 8, 0, (uint8_t)(vlan >> 8 & 15), (uint8_t)vlan}, 4);
    return len + 4;
}

/* Takes all VLAN tags away. Returns the new length. */
static size_t remove_tags(uint8_t *frame, size_t len)
{
    struct lk_link link;
    if (lk_read_link(LK_LINKTYPE_ETHERNET, frame, len, &link) != LK_READ)
        return len;
    memmove(frame + 12, frame + link.offset - 2, len - link.offset + 2);
    return len - (link.offset - LK_ETHERNET_HEADER_LEN);
}

/* Replies to an echo request for `own`, if the checksums are right. */
static ptrdiff_t pong(const struct lk_addr *own, const uint8_t *frame, size_t len, uint8_t *out, size_t cap)
{
    struct lk_frame f;
    lk_read_frame(frame, len, &f);
    if (!lk_is_valid(&f) || f.transport != LK_ICMP || f.icmp.type != LK_ICMP_ECHO_REQUEST)
        return 0;
    if (memcmp(&f.dst.addr, own, sizeof *own) != 0 || !lk_is_unicast(&f.src.addr))
        return 0;
    lk_make_reply(&f);
    f.icmp.type = LK_ICMP_ECHO_REPLY;
    return lk_emit_icmp_frame(&f, frame + f.payload_offset, f.payload_len, out, cap);
}

/* Writes a SYN and ACK over IPv4 whose payload, if it has one, is after its headers in `out`. */
static ptrdiff_t write_syn(size_t payload_len, uint8_t *out, size_t cap)
{
    const struct lk_tcp_options options = {.has_mss = 1, .mss = 1460};
    struct lk_frame headers = {.ip = {.hop_limit = 64}, .tcp = {1, 2, 64240, 0, LK_SYN | LK_ACK, 0}};
    headers.src = (struct lk_endpoint){addr_of("192.0.2.1"), 80};
    headers.dst = (struct lk_endpoint){addr_of("192.0.2.2"), 4000};
    /* the payload begins at out[LK_ETHERNET_HEADER_LEN + LK_IPV4_HEADER_LEN + lk_tcp_header_len(&options)] */
    return lk_wrap_tcp_frame(&headers, &options, payload_len, out, cap);
}

/* Prints the kind of each TCP option, up to the first malformed one. */
static void print_options(const uint8_t *frame, const struct lk_frame *f)
{
    struct lk_tcp_option option = {0, 0, 0, 0};
    printf("options:");
    while (lk_next_tcp_option(frame + f->transport_offset, f->tcp.header_len, &option))
        printf(" %u", option.kind);
    printf("\n");
}

/* Prints the names of the TCP flags, and the options. */
static void print_flags(const uint8_t *frame, size_t len)
{
    struct lk_frame f;
    lk_read_frame(frame, len, &f);
    printf("flags:");
    for (int flag = LK_FIN; flag <= LK_CWR; flag *= 2)
        if (f.tcp.flags & flag)
            printf(" %s", lk_tcp_flag_name(flag));
    printf("\n");
    if (f.transport == LK_TCP)
        print_options(frame, &f);
}

/* Writes an echo request for a raw socket (IPPROTO_ICMP), without an IP header. Over IPv4 no address is summed. */
static ptrdiff_t ping_message(uint16_t ident, uint16_t number, uint8_t *out, size_t cap)
{
    const struct lk_icmp echo = {(uint32_t)ident << 16 | number, LK_ICMP_ECHO_REQUEST, 0};
    const struct lk_addr any = addr_of("0.0.0.0");
    return lk_emit_icmp(&echo, &any, &any, (const uint8_t *)"data", 4, 1, out, cap);
}

/* The identifier of our echo requests. */
enum { PING = 7 };

/* Writes an echo request as an IP packet, for a TUN device. */
static ptrdiff_t ping(const struct lk_addr *src, const struct lk_addr *dst, uint16_t number, uint8_t *out, size_t cap)
{
    struct lk_frame headers = {.src = {.addr = *src}, .dst = {.addr = *dst}, .ip = {.hop_limit = 64}};
    headers.icmp.type = src->version == 4 ? LK_ICMP_ECHO_REQUEST : LK_ICMPV6_ECHO_REQUEST;
    headers.icmp.word = (uint32_t)PING << 16 | number;
    return lk_emit_icmp_packet(&headers, (const uint8_t *)"ping", 4, out, cap);
}

/* Whether a packet of the device is the reply to it. */
static int is_pong(const struct lk_addr *src, const struct lk_addr *dst, uint16_t number, const uint8_t *packet, size_t len)
{
    const int type = src->version == 4 ? LK_ICMP_ECHO_REPLY : LK_ICMPV6_ECHO_REPLY;
    struct lk_frame f;
    lk_read_packet(packet, len, &f);
    return lk_is_valid(&f) && f.transport == LK_ICMP && f.icmp.type == type && f.icmp.code == 0 &&
           f.icmp.word == ((uint32_t)PING << 16 | number) && memcmp(&f.src.addr, dst, sizeof *dst) == 0 &&
           memcmp(&f.dst.addr, src, sizeof *src) == 0;
}

/* Prints why a frame is dropped, or that it may be used. */
static void judge(const uint8_t *frame, size_t len)
{
    struct lk_frame f;
    int reason = lk_read_frame(frame, len, &f);
    if (reason != LK_READ)
        printf("dropped at byte %zu: %s\n", f.payload_offset, lk_reason_name(reason));
    else if (!lk_is_valid(&f))
        printf("dropped: wrong checksum\n");
    else
        printf("used: %s from byte %zu\n", lk_protocol_name(f.protocol), f.payload_offset);
}

/* Prints the payload of a packet, as far as it was captured. */
static void print_captured(uint32_t link_type, const uint8_t *bytes, size_t captured, size_t len)
{
    struct lk_frame f;
    if (lk_read_linktype(link_type, bytes, captured, len, &f) == LK_READ)
        printf("%zu of %zu bytes: %.*s\n", f.payload_captured, f.payload_len, (int)f.payload_captured,
               (const char *)bytes + f.payload_offset);
}

int main(void)
{
    uint8_t frame[128], out[128];
    const struct lk_frame echo = {.ethernet = {{2, 0, 0, 0, 0, 1}, {2, 0, 0, 0, 0, 2}, 0},
                                  .src = {addr_of("192.0.2.1"), 0}, .dst = {addr_of("192.0.2.2"), 0},
                                  .ip = {.hop_limit = 64}, .icmp = {7u << 16 | 1, LK_ICMP_ECHO_REQUEST, 0}};
    const struct lk_ethernet ipv4 = {.type = LK_ETHERTYPE_IPV4};
    const struct lk_endpoint before = {addr_of("192.0.2.2"), 53}, after = {addr_of("198.51.100.7"), 5353};
    uint16_t ipv4_checksum, udp = 0;
    ptrdiff_t len;
    if (!is_usable())
        return 1;
    memcpy(frame + UDP_PAYLOAD, "hello", 5);
    len = write_around(5, frame, sizeof frame);
    print("written", frame, len);
    printf("UDP checksum: 0x%04x\n", udp_checksum(frame, (size_t)len));
    udp = (uint16_t)udp_checksum(frame, (size_t)len);
    ipv4_checksum = (uint16_t)(frame[24] << 8 | frame[25]);
    update(&ipv4_checksum, &udp, &before, &after);
    printf("updated by hand: 0x%04x 0x%04x\n", ipv4_checksum, udp);
    redirect(frame, (size_t)len);
    replace(frame, (size_t)len, "HELLO");
    print("edited", frame, len);
    len = (ptrdiff_t)add_tag(frame, (size_t)len, 7);
    printf("with a tag: %td bytes of type %s\n", len, lk_ethertype_name(frame[12] << 8 | frame[13]));
    lk_set_port(frame + 4, (size_t)len - 4, LK_SOURCE, 4001);
    len = (ptrdiff_t)remove_tags(frame, (size_t)len);
    print("without it", frame, len);
    redirect_virtio(frame, (size_t)len, 0);
    hide_source(frame, (size_t)len);
    lower_hop_limit(frame, (size_t)len - LK_ETHERNET_HEADER_LEN);
    print("translated", frame, len);
    print_captured(LK_LINKTYPE_ETHERNET, frame, UDP_PAYLOAD + 3, (size_t)len);
    judge(frame, (size_t)len);
    frame[UDP_PAYLOAD + 2] ^= 1;
    judge(frame, (size_t)len);
    judge(frame, 30);
    len = lk_emit_icmp_frame(&echo, (const uint8_t *)"ping", 4, frame, sizeof frame);
    print("echo", frame, len);
    print("reply", out, pong(&before.addr, frame, (size_t)len, out, sizeof out));
    print("no room", out, pong(&before.addr, frame, (size_t)len, out, 40));
    len = ping(&echo.src.addr, &echo.dst.addr, 1, frame + LK_ETHERNET_HEADER_LEN, sizeof frame - LK_ETHERNET_HEADER_LEN);
    lk_emit_ethernet(&ipv4, frame, LK_ETHERNET_HEADER_LEN);
    len = pong(&before.addr, frame, LK_ETHERNET_HEADER_LEN + (size_t)len, out, sizeof out) - LK_ETHERNET_HEADER_LEN;
    printf("ping over TUN: %td bytes, %s\n", len,
           is_pong(&echo.src.addr, &echo.dst.addr, 1, out + LK_ETHERNET_HEADER_LEN, (size_t)len) ? "answered" : "lost");
    len = write_syn(0, frame, sizeof frame);
    print("SYN", frame, len);
    print_flags(frame, (size_t)len);
    printf("a message for a raw socket: %td bytes\n", ping_message(7, 1, out, sizeof out));
    return 0;
}
