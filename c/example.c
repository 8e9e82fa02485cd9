/* A frame with padding is read, whole and captured in part, rebuilt without the padding, and a header is written: for
 * IPv4, and for IPv6. Then UDP packets, TCP segments and an ARP request are written, a received frame is answered, and
 * texts are read and printed. */
#include <stdio.h>
#include <string.h>
#include "ip_wire.h"

static void print_bytes(const char *name, const uint8_t *ptr, ptrdiff_t len)
{
    printf("%s ", name);
    if (len < 0)
        printf("failed");
    for (ptrdiff_t i = 0; i < len; i++)
        printf("%02x", ptr[i]);
    printf("\n");
}

static struct lk_addr read_addr(const char *text)
{
    struct lk_addr addr;
    if (!lk_parse_addr(text, strlen(text), &addr))
        printf("%s is no address\n", text), memset(&addr, 0, sizeof addr);
    return addr;
}

static struct lk_endpoint read_endpoint(const char *text)
{
    struct lk_endpoint endpoint;
    if (!lk_parse_endpoint(text, strlen(text), &endpoint))
        printf("%s is no endpoint\n", text), memset(&endpoint, 0, sizeof endpoint);
    return endpoint;
}

static void print_addr(const struct lk_addr *addr)
{
    char text[39];
    ptrdiff_t len = lk_print_addr(addr, text, sizeof text);
    if (len >= 0)
        printf("address %.*s\n", (int)len, text);
}

/* Prints a frame as a line, and where its payload is. */
static void print_frame(const uint8_t *ptr, size_t len)
{
    struct lk_frame frame;
    char line[LK_FRAME_TEXT];
    int reason = lk_read_frame(ptr, len, &frame);
    lk_print_frame(&frame, line, sizeof line);
    printf("%s\n", line);
    if (reason != LK_READ)
        printf("the header at byte %zu is rejected: %s\n", frame.payload_offset, lk_reason_name(reason));
    else if (frame.transport != LK_NO_TRANSPORT)
        printf("%s from port %u to %u, payload at %zu, checksum right: %d\n", frame.transport == LK_TCP ? "TCP" : "UDP",
               (unsigned)frame.src.port, (unsigned)frame.dst.port, frame.payload_offset, frame.transport_checksum == LK_CHECKSUM_VALID);
    else
        printf("type %04x, protocol %u, payload at %zu\n", (unsigned)frame.ethernet.type, (unsigned)frame.ip.protocol, frame.payload_offset);
}

/* Prints the payload of a frame of `len` bytes, as far as it was captured. */
static void print_captured(const uint8_t *ptr, size_t captured, size_t len)
{
    struct lk_frame frame;
    if (lk_read_captured(ptr, captured, len, &frame) == LK_READ)
        print_bytes("captured", ptr + frame.payload_offset, (ptrdiff_t)frame.payload_captured);
}

/* Answers a frame with a UDP packet: the same payload goes back to where it came from. */
static void answer(const uint8_t *ptr, size_t len)
{
    struct lk_frame frame;
    uint8_t out[80];
    if (lk_read_frame(ptr, len, &frame) != LK_READ || frame.transport != LK_UDP)
        return;
    lk_make_reply(&frame);
    print_bytes("answer", out, lk_emit_udp_frame(&frame, ptr + frame.payload_offset, frame.payload_len, out, sizeof out));
}

/* Reads texts, and prints some of them again. */
static void read_texts(void)
{
    static const char hardware[] = "AB-cd-ef-0-0-1", zeros[] = "010.0.0.1", zone[] = "fe80::1%eth0", block[] = "10.1.2.3/8",
                      long_prefix[] = "10.1.2.3/33";
    struct lk_addr addr = read_addr("2001:DB8:0::1"), member = read_addr("10.255.0.1");
    struct lk_prefix parsed;
    uint8_t octets[6];
    char out[43];
    ptrdiff_t len;

    if (lk_parse_mac(hardware, strlen(hardware), octets)) {
        len = lk_print_mac(octets, out, sizeof out);
        printf("%s is %.*s\n", hardware, (int)len, out);
    }
    print_addr(&addr);
    if (lk_parse_addr(zeros, strlen(zeros), &addr)) {
        len = lk_print_addr(&addr, out, sizeof out);
        printf("%s is %.*s\n", zeros, (int)len, out);
    }
    printf("%s: %d\n", zone, lk_parse_addr(zone, strlen(zone), &addr));
    if (lk_parse_prefix(block, strlen(block), &parsed)) {
        len = lk_print_prefix(&parsed, out, sizeof out);
        printf("%.*s has 10.255.0.1: %d\n", (int)len, out, lk_contains(&parsed, &member));
    }
    printf("%s: %d\n", long_prefix, lk_parse_prefix(long_prefix, strlen(long_prefix), &parsed));
}

int main(void)
{
    static const uint8_t frame[] = {
        0x01, 0x02, 0x03, 0x04, 0x05, 0x06, 0x11, 0x12, 0x13, 0x14, 0x15, 0x16, 0x08, 0x00,
        0x45, 0x00, 0x00, 0x18, 0x00, 0x00, 0x40, 0x00, 0x40, 0x01, 0xd2, 0x79,
        0x11, 0x12, 0x13, 0x14, 0x21, 0x22, 0x23, 0x24,
        0xaa, 0x00, 0x00, 0xff, /* the payload */
        0x00, 0x00,             /* padding */
    };
    static const uint8_t ipv6_frame[] = {
        0x33, 0x33, 0x00, 0x00, 0x00, 0x01, 0x11, 0x12, 0x13, 0x14, 0x15, 0x16, 0x86, 0xdd,
        0x6a, 0x12, 0x34, 0x56, /* the version, a traffic class and a flow label */
        0x00, 0x0c, 0x11, 0x40,
        0xfe, 0x80, 0, 0, 0, 0, 0, 0, 0, 0, 0, 0, 0, 0, 0, 0x01,
        0xff, 0x02, 0, 0, 0, 0, 0, 0, 0, 0, 0, 0, 0, 0, 0, 0x01,
        0x00, 0x01, 0x00, 0x02, 0x00, 0x0c, 0x02, 0x4e, /* a UDP header */
        0xff, 0xff, 0xff, 0xff,                         /* the payload */
        0x00, 0x00,                                     /* padding */
    };
    static const uint8_t payload[] = {0xaa, 0x00, 0x00, 0xff};
    struct lk_endpoint client = read_endpoint("192.168.1.1:48896"), server = read_endpoint("192.168.1.2:53");
    struct lk_endpoint client6 = read_endpoint("[fe80::1]:1"), server6 = read_endpoint("[ff02::1]:2");
    struct lk_addr src = read_addr("10.0.0.1"), dst = read_addr("10.0.0.2"), mapped = read_addr("::ffff:192.168.1.1");
    struct lk_prefix site = {read_addr("192.168.0.0"), 16}, link = {client6.addr, 64};
    uint8_t out[80], first[36];
    struct lk_ip ip;
    ptrdiff_t len;

    printf("checksum of the header %04x\n", (unsigned)lk_checksum(frame + 14, 20));
    print_frame(frame, sizeof frame);
    print_frame(frame, 30);
    memcpy(first, frame, sizeof first);
    print_captured(first, sizeof first, sizeof frame);
    print_bytes("rebuilt", out, lk_rebuild(frame, sizeof frame, out, sizeof out));
    print_bytes("room for 37 bytes:", out, lk_rebuild(frame, sizeof frame, out, 37));

    memset(&ip, 0, sizeof ip);
    ip.protocol = 6;
    ip.hop_limit = 64;
    ip.dont_fragment = 1;
    print_bytes("header", out, lk_emit_ip(&ip, &src, &dst, 10, 1, out, sizeof out));
    print_bytes("a payload too long:", out, lk_emit_ip(&ip, &src, &dst, 65516, 1, out, sizeof out));

    print_frame(ipv6_frame, sizeof ipv6_frame);
    print_bytes("rebuilt", out, lk_rebuild(ipv6_frame, sizeof ipv6_frame, out, sizeof out));
    ip.protocol = 17;
    print_bytes("header", out, lk_emit_ip(&ip, &client6.addr, &server6.addr, 12, 1, out, sizeof out));
    print_bytes("a payload too long:", out, lk_emit_ip(&ip, &client6.addr, &server6.addr, 65536, 1, out, sizeof out));
    print_addr(&client6.addr);
    printf("in 192.168.0.0/16: %d\n", lk_contains(&site, &client.addr));
    printf("in fe80::1/64: %d\n", lk_contains(&link, &server6.addr));
    print_addr(&mapped);
    printf("room for 6 bytes: %d\n", lk_print_addr(&client6.addr, (char *)out, 6) == LK_NO_ROOM);

    print_bytes("UDP over IPv4", out, lk_emit_udp(&client, &server, payload, 4, 1, out, sizeof out));
    print_bytes("UDP over IPv6", out, lk_emit_udp(&client6, &server6, payload, 4, 1, out, sizeof out));
    print_bytes("room for 11 bytes:", out, lk_emit_udp(&client, &server, payload, 4, 1, out, 11));

    struct lk_tcp syn;
    struct lk_tcp_options options;
    memset(&syn, 0, sizeof syn);
    memset(&options, 0, sizeof options);
    server.port = server6.port = 80;
    client6.port = 48896;
    syn.seq_number = 0x01234567;
    syn.window_len = 0x0123;
    syn.flags = LK_SYN;
    options.has_mss = 1;
    options.mss = 1460;
    options.has_window_scale = 1;
    options.window_scale = 14;
    options.sack_permitted = 1;
    print_bytes("SYN over IPv4", out, lk_emit_tcp(&syn, &options, &client, &server, payload, 0, 1, out, sizeof out));
    print_bytes("SYN over IPv6", out, lk_emit_tcp(&syn, &options, &client6, &server6, payload, 0, 1, out, sizeof out));
    syn.flags = LK_SYN + LK_RST;
    print_bytes("SYN and RST:", out, lk_emit_tcp(&syn, &options, &client, &server, payload, 0, 1, out, sizeof out));

    struct lk_frame request;
    memset(&request, 0, sizeof request);
    request.src = read_endpoint("192.0.2.1");
    request.dst = read_endpoint("192.0.2.2");
    request.arp.operation = 1;
    memcpy(request.arp.src_hardware, "\2\0\0\0\0\1", 6);
    print_bytes("ARP request", out, lk_emit_arp(&request.arp, &request.src.addr, &request.dst.addr, out, sizeof out));
    memcpy(request.ethernet.src, request.arp.src_hardware, 6);
    memset(request.ethernet.dst, 0xff, 6);
    len = lk_emit_arp_frame(&request, out, sizeof out);
    print_bytes("ARP frame", out, len);

    answer(ipv6_frame, sizeof ipv6_frame);
    read_texts();
    return 0;
}
