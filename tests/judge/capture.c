/* A capture of valid frames, and what the library stores of each, as tshark prints it. */
#include <stdio.h>
#include <stdlib.h>
#include <string.h>
#include "judge.h"

static FILE *rows;

/* ---- fields ---- */

static void write_text(const char *text)
{
    fprintf(rows, "\t%s", text);
}

static void write_number(int is_there, unsigned long number)
{
    if (is_there)
        fprintf(rows, "\t%lu", number);
    else
        write_text("");
}

static void write_hardware(int is_there, const uint8_t *octets)
{
    write_text("");
    for (int i = 0; is_there && i < 6; i++)
        fprintf(rows, i == 0 ? "%02x" : ":%02x", octets[i]);
}

static void write_addr(int is_there, const struct lk_addr *addr)
{
    char text[LK_ADDR_TEXT];
    if (is_there)
        lk_print_addr(addr, text, sizeof text);
    write_text(is_there ? text : "");
}

/* Wireshark's PROTO_CHECKSUM_E_..: 0 bad, 1 good, 2 unverified, 3 not present. It has none for LK_CHECKSUM_PARTIAL. */
static void write_verdict(int is_there, unsigned verdict)
{
    static const char *const statuses[] = {"2", "1", "0", "3", "partial"};
    write_text(is_there ? statuses[verdict] : "");
}

/* ---- rows: the fields are those of tests/judge/tshark.py ---- */

/* The number of extension headers of IPv6 that `counts` counts. */
static int count_extensions(const struct lk_frame *frame, int counts(unsigned protocol, const uint8_t *ptr, size_t len))
{
    struct lk_ipv6_header header = {0, 0, 0, 0, 0};
    int count = 0;
    while (frame->network == LK_IPV6 && lk_next_ipv6_header(made.octets + 14, made.len - 14, &header))
        count += counts(header.protocol, made.octets + 14 + header.offset, header.len);
    return count;
}

static int is_fragment_header(unsigned protocol, const uint8_t *ptr, size_t len)
{
    (void)ptr, (void)len;
    return protocol == 44;
}

/* Options that are more than one padding, a routing header of another type than those for experiments (RFC 4727), and an
 * authentication header without a sequence number. */
static int is_special(unsigned protocol, const uint8_t *ptr, size_t len)
{
    if (protocol == 0 || protocol == 60)
        return ptr[2] != 1 || ptr[3] != len - 4;
    return protocol == 43 ? ptr[2] < 253 || ptr[2] == 255 : protocol == 51 && len < 12;
}

static void write_ip(const struct lk_frame *frame)
{
    int is_ipv4 = frame->network == LK_IPV4, is_ipv6 = frame->network == LK_IPV6;
    int has_fragment_header = count_extensions(frame, is_fragment_header) > 0;
    write_addr(is_ipv4, &frame->src.addr);
    write_addr(is_ipv4, &frame->dst.addr);
    write_number(is_ipv4, frame->ip.dscp);
    write_number(is_ipv4, frame->ip.ecn);
    write_number(is_ipv4, frame->ip.ident);
    write_number(is_ipv4, frame->ip.dont_fragment);
    write_number(is_ipv4, frame->ip.more_fragments);
    write_number(is_ipv4, frame->ip.fragment_offset);
    write_number(is_ipv4, frame->ip.hop_limit);
    write_number(is_ipv4, frame->ip.protocol);
    write_verdict(is_ipv4, frame->ipv4_checksum);
    write_addr(is_ipv6, &frame->src.addr);
    write_addr(is_ipv6, &frame->dst.addr);
    write_number(is_ipv6, frame->ip.dscp);
    write_number(is_ipv6, frame->ip.ecn);
    write_number(is_ipv6, frame->ip.flow_label);
    write_number(is_ipv6, frame->ip.protocol);
    write_number(is_ipv6, frame->ip.hop_limit);
    write_number(has_fragment_header, frame->ip.fragment_offset);
    write_number(has_fragment_header, frame->ip.more_fragments);
    write_number(has_fragment_header, frame->ip.ident);
}

static void write_transport(const struct lk_frame *frame)
{
    int is_udp = frame->transport == LK_UDP, is_tcp = frame->transport == LK_TCP;
    write_number(is_udp, frame->src.port);
    write_number(is_udp, frame->dst.port);
    write_number(is_udp, 8 + frame->payload_len);
    write_verdict(is_udp, frame->transport_checksum);
    write_number(is_tcp, frame->src.port);
    write_number(is_tcp, frame->dst.port);
    write_number(is_tcp, frame->tcp.seq_number);
    write_number(is_tcp, frame->tcp.ack_number);
    write_number(is_tcp, frame->tcp.header_len);
    write_number(is_tcp, frame->tcp.flags);
    write_number(is_tcp, frame->tcp.window_len);
    write_number(is_tcp, frame->tcp.urgent_at);
    write_number(is_tcp, frame->payload_len);
    write_verdict(is_tcp, frame->transport_checksum);
}

/* The addresses of the packet that an error or a redirect quotes, if its header is there. */
static void write_quoted(const struct lk_frame *frame)
{
    const uint8_t *ptr = made.octets + frame->payload_offset;
    size_t addr_at = frame->network == LK_IPV4 ? 12 : 8;
    struct lk_addr addr = {{0}, (uint16_t)(frame->network == LK_IPV4 ? 4 : 6)};
    int is_error = frame->transport == LK_ICMP && frame->payload_len >= (addr.version == 4 ? 20 : 40) &&
                   (addr.version == 4 ? memchr("\3\4\5\13\14", frame->icmp.type, 5) != 0
                                      : frame->icmp.type >= 1 && frame->icmp.type <= 4);
    for (int i = 0; i < 2; i++) {
        memcpy(addr.octets, ptr + addr_at + (size_t)i * addr_len(&addr), is_error ? addr_len(&addr) : 0);
        write_addr(is_error, &addr);
    }
}

static void write_icmp(const struct lk_frame *frame)
{
    int is_icmp = frame->transport == LK_ICMP && frame->network == LK_IPV4;
    int is_icmpv6 = frame->transport == LK_ICMP && frame->network == LK_IPV6;
    write_number(is_icmp, frame->icmp.type);
    write_number(is_icmp, frame->icmp.code);
    write_verdict(is_icmp, frame->transport_checksum);
    write_number(is_icmpv6, frame->icmp.type);
    write_number(is_icmpv6, frame->icmp.code);
    write_verdict(is_icmpv6, frame->transport_checksum);
    write_quoted(frame);
}

static void write_row(const struct lk_frame *frame)
{
    int is_arp = frame->network == LK_ARP;
    fprintf(rows, "%zu", made.len);
    write_hardware(1, frame->ethernet.dst);
    write_hardware(1, frame->ethernet.src);
    write_number(1, frame->ethernet.type);
    write_number(is_arp, frame->arp.operation);
    write_hardware(is_arp, frame->arp.src_hardware);
    write_addr(is_arp, &frame->src.addr);
    write_hardware(is_arp, frame->arp.dst_hardware);
    write_addr(is_arp, &frame->dst.addr);
    write_ip(frame);
    write_transport(frame);
    write_icmp(frame);
    fprintf(rows, "\n");
}

/* ---- the capture ---- */

/* A little-endian number of a pcap file. */
static void put_number(FILE *file, uint32_t number, int octets)
{
    for (int i = 0; i < octets; i++)
        fputc((int)(number >> 8 * i & 0xff), file);
}

static void begin_capture(FILE *file)
{
    put_number(file, 0xa1b2c3d4, 4);
    put_number(file, 2, 2);
    put_number(file, 4, 2);
    put_number(file, 0, 4);
    put_number(file, 0, 4);
    put_number(file, 0x40000, 4);
    put_number(file, 1, 4);
}

static void add_frame(FILE *file)
{
    put_number(file, 0, 4);
    put_number(file, 0, 4);
    put_number(file, (uint32_t)made.len, 4);
    put_number(file, (uint32_t)made.len, 4);
    fwrite(made.octets, 1, made.len, file);
}

/* Whether a byte of the options of an IPv4 header is the number of an option that tshark dissects: it stops at one of a
 * wrong length. */
static int has_known_option(const struct lk_frame *frame)
{
    static const uint8_t kinds[] = {7, 11, 12, 25, 68, 82, 130, 131, 133, 134, 136, 137, 148, 149};
    const uint8_t *ip = made.octets + 14;
    for (size_t i = 20; frame->network == LK_IPV4 && i < 4u * (ip[0] & 15); i++)
        if (memchr(kinds, ip[i], sizeof kinds) != 0)
            return 1;
    return 0;
}

/* Whether tshark dissects just the headers that lk_read_frame reads. It dissects the transport of a first fragment
 * too, and what other protocols carry. Of several fragment headers it prints the first, and it
 * dissects options and routes. It calls a TCP or ICMP checksum bad that is 0xffff instead of 0, but by RFC 1071
 * the sum is right. In ARP operation 7 (DRARP error, RFC 1931) it finds an error instead of the last address. */
static int is_comparable(const struct lk_frame *frame)
{
    if (frame->reason != LK_READ || count_extensions(frame, is_fragment_header) > 1 || count_extensions(frame, is_special) > 0)
        return 0;
    if (frame->transport == LK_TCP)
        return get_word(made.octets + frame->transport_offset + 16) != 0xffff;
    if (frame->transport == LK_ICMP)
        return get_word(made.octets + frame->transport_offset + 2) != 0xffff;
    if (frame->network == LK_ARP)
        return frame->arp.operation != 7;
    return frame->transport == LK_UDP || frame->ip.fragment_offset != 0;
}

/* Opens both files, and begins the capture. */
static FILE *open_capture(const char *capture, const char *rows_name)
{
    FILE *file = fopen(capture, "wb");
    rows = fopen(rows_name, "w");
    if (!file || !rows) {
        perror("judge: capture");
        exit(2);
    }
    begin_capture(file);
    return file;
}

static void close_capture(FILE *file)
{
    if (fclose(file) != 0 || fclose(rows) != 0) {
        perror("judge: capture");
        exit(2);
    }
}

void write_capture(const char *capture, const char *rows_name, unsigned long count)
{
    FILE *file = open_capture(capture, rows_name);
    struct lk_frame frame;
    while (count > 0) {
        make_valid();
        lk_read_frame(made.octets, made.len, &frame);
        if (!is_comparable(&frame) || has_known_option(&frame))
            continue;
        add_frame(file);
        write_row(&frame);
        count--;
    }
    close_capture(file);
}

static int digit(int c)
{
    return c >= '0' && c <= '9' ? c - '0' : c >= 'a' && c <= 'f' ? c - 'a' + 10 : -1;
}

/* Reads a line of hex digits as the frame that was made last. Returns 0 at the end; other lines make no frame. */
static int read_line(void)
{
    int c = getchar(), high;
    made.len = 0;
    for (; digit(c) >= 0 && made.len < sizeof made.octets; c = getchar()) {
        high = digit(c);
        c = getchar();
        if (digit(c) < 0)
            break;
        made.octets[made.len++] = (uint8_t)(16 * high + digit(c));
    }
    if (c != '\n')
        made.len = 0;
    while (c != '\n' && c != EOF)
        c = getchar();
    return c != EOF;
}

void write_recorded(const char *capture, const char *rows_name)
{
    FILE *file = open_capture(capture, rows_name);
    struct lk_frame frame;
    while (read_line()) {
        lk_read_frame(made.octets, made.len, &frame);
        if (frame.transport != LK_ICMP || !is_comparable(&frame))
            continue;
        add_frame(file);
        write_row(&frame);
    }
    close_capture(file);
}
