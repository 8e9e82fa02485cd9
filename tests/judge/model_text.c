/* The model of texts. */
#include <stdio.h>
#include <string.h>
#include "model.h"

/* A part of a text. */
struct part {
    const char *ptr;
    size_t len;
};

static struct part from_to(const char *begin, const char *end)
{
    struct part part = {begin, (size_t)(end - begin)};
    return part;
}

/* Where this character is in the text first, or null. */
static const char *find(struct part text, char wanted)
{
    for (size_t i = 0; i < text.len; i++)
        if (text.ptr[i] == wanted)
            return text.ptr + i;
    return 0;
}

/* Cuts a text at each separator. Returns the number of parts, or 0 if there are more than `most`. */
static int split(struct part text, char separator, struct part *parts, int most)
{
    const char *end = text.ptr + text.len;
    for (int count = 0; count < most; count++) {
        const char *at = find(text, separator);
        parts[count] = from_to(text.ptr, at ? at : end);
        if (!at)
            return count + 1;
        text = from_to(at + 1, end);
    }
    return 0;
}

static int digit_value(char digit, int base)
{
    static const char digits[] = "0123456789abcdef0123456789ABCDEF";
    for (int i = 0; i < 32; i++)
        if (digit == digits[i] && i % 16 < base)
            return i % 16;
    return -1;
}

/* The number that 1 to `most_digits` digits say, or -1 if it is more than `most`. */
static long number(struct part text, int base, size_t most_digits, long most)
{
    long value = 0;
    if (text.len == 0 || text.len > most_digits)
        return -1;
    for (size_t i = 0; i < text.len; i++) {
        int digit = digit_value(text.ptr[i], base);
        if (digit < 0)
            return -1;
        value = value * base + digit;
        if (value > most)
            return -1;
    }
    return value;
}

/* ---- parsing ---- */

static int parse_ipv4(struct part text, uint8_t *octets)
{
    struct part parts[4];
    if (split(text, '.', parts, 4) != 4)
        return 0;
    for (int i = 0; i < 4; i++) {
        long value = number(parts[i], 10, 3, 255);
        if (value < 0)
            return 0;
        octets[i] = (uint8_t)value;
    }
    return 1;
}

/* Parses groups that are joined by ':', and stores their bytes. Returns how many bytes, or -1. The last group may
 * be dotted, if the text ends there. */
static int parse_groups(struct part text, int ends_here, uint8_t *octets, int *is_dotted)
{
    struct part parts[8];
    int count = text.len == 0 ? 0 : split(text, ':', parts, 8);
    if (text.len != 0 && count == 0)
        return -1;
    for (int i = 0; i < count; i++) {
        long value = number(parts[i], 16, 4, 0xffff);
        if (value >= 0) {
            put_word(octets + 2 * i, (unsigned)value);
        } else if (ends_here && i == count - 1 && i <= 6 && parse_ipv4(parts[i], octets + 2 * i)) {
            *is_dotted = 1;
            return 2 * count + 2;
        } else {
            return -1;
        }
    }
    return 2 * count;
}

/* Where "::" is first, or null. */
static const char *find_gap(struct part text)
{
    for (size_t i = 0; i + 1 < text.len; i++)
        if (text.ptr[i] == ':' && text.ptr[i + 1] == ':')
            return text.ptr + i;
    return 0;
}

/* RFC 4291, section 2.2. "::" stands for one group of zeros or more. */
static int parse_ipv6(struct part text, uint8_t *octets)
{
    static const uint8_t mapped[12] = {0, 0, 0, 0, 0, 0, 0, 0, 0, 0, 0xff, 0xff};
    const char *gap = find_gap(text), *end = text.ptr + text.len;
    uint8_t head[16], tail[16];
    int is_dotted = 0, head_len, tail_len = 0;
    head_len = parse_groups(gap ? from_to(text.ptr, gap) : text, !gap, head, &is_dotted);
    if (gap)
        tail_len = parse_groups(from_to(gap + 2, end), 1, tail, &is_dotted);
    if (head_len < 0 || tail_len < 0 || (gap ? head_len + tail_len > 14 : head_len != 16))
        return 0;
    memset(octets, 0, 16);
    memcpy(octets, head, (size_t)head_len);
    memcpy(octets + 16 - tail_len, tail, (size_t)tail_len);
    return !is_dotted || (memcmp(octets, mapped, 12) == 0 && (!gap || tail_len == 6));
}

static int parse_addr(struct part text, struct lk_addr *addr)
{
    memset(addr, 0, sizeof *addr);
    addr->version = find(text, ':') ? 6 : 4;
    return addr->version == 6 ? parse_ipv6(text, addr->octets) : parse_ipv4(text, addr->octets);
}

int model_parse_addr(const char *ptr, size_t len, struct lk_addr *addr)
{
    struct part text = {ptr, used_len(len)};
    struct lk_addr parsed;
    if (!parse_addr(text, &parsed))
        return 0;
    *addr = parsed;
    return 1;
}

int model_parse_prefix(const char *ptr, size_t len, struct lk_prefix *block)
{
    struct part text = {ptr, used_len(len)}, parts[2];
    struct lk_prefix parsed;
    long prefix_len;
    if (split(text, '/', parts, 2) != 2 || !parse_addr(parts[0], &parsed.addr))
        return 0;
    prefix_len = parsed.addr.version == 4 ? number(parts[1], 10, 2, 32) : number(parts[1], 10, 3, 128);
    if (prefix_len < 0)
        return 0;
    parsed.prefix_len = (uint16_t)prefix_len;
    *block = parsed;
    return 1;
}

int model_parse_endpoint(const char *ptr, size_t len, struct lk_endpoint *endpoint)
{
    struct part text = {ptr, used_len(len)}, addr = text;
    const char *end = text.ptr + text.len, *mark;
    struct lk_endpoint parsed;
    long port = 0;
    int is_bracketed = text.len != 0 && text.ptr[0] == '[';
    if (is_bracketed || !parse_addr(text, &parsed.addr)) {
        mark = find(text, is_bracketed ? ']' : ':');
        if (!mark)
            return 0;
        addr = is_bracketed ? from_to(text.ptr + 1, mark) : from_to(text.ptr, mark);
        mark += is_bracketed;
        if (mark == end || *mark != ':')
            return 0;
        port = number(from_to(mark + 1, end), 10, 5, 65535);
        if (port < 0 || !parse_addr(addr, &parsed.addr) || (parsed.addr.version == 6) != is_bracketed)
            return 0;
    }
    parsed.port = (uint16_t)port;
    *endpoint = parsed;
    return 1;
}

int model_parse_mac(const char *ptr, size_t len, uint8_t *octets)
{
    struct part text = {ptr, used_len(len)}, parts[6];
    uint8_t parsed[6];
    if (split(text, '-', parts, 6) != 6 && split(text, ':', parts, 6) != 6)
        return 0;
    for (int i = 0; i < 6; i++) {
        long value = number(parts[i], 16, 2, 255);
        if (value < 0)
            return 0;
        parsed[i] = (uint8_t)value;
    }
    memcpy(octets, parsed, 6);
    return 1;
}

/* ---- printing ---- */

/* Copies a text with as much of its null as there is room for. */
static ptrdiff_t finish(const char *text, char *out, size_t cap)
{
    size_t len = strlen(text);
    if (len > used_len(cap))
        return LK_NO_ROOM;
    memcpy(out, text, len + (used_len(cap) > len));
    return (ptrdiff_t)len;
}

/* RFC 5952, section 4.2: "::" replaces the first of the longest runs of two zero groups or more. */
static void find_zeros(const uint8_t *octets, int *begin, int *end)
{
    *begin = *end = 8;
    for (int longest = 8; longest >= 2; longest--)
        for (int at = 0; at + longest <= 8; at++) {
            int zeros = 0;
            while (zeros < longest && get_word(octets + 2 * (at + zeros)) == 0)
                zeros++;
            if (zeros == longest) {
                *begin = at;
                *end = at + longest;
                return;
            }
        }
}

static void write_ipv4(const uint8_t *octets, char *text)
{
    sprintf(text, "%d.%d.%d.%d", octets[0], octets[1], octets[2], octets[3]);
}

/* RFC 5952. Dotted decimal is printed only after ::ffff:0:0/96. */
static void write_ipv6(const struct lk_addr *addr, char *text)
{
    int begin, end;
    if (is_in(addr, "::ffff:0:0/96")) {
        strcpy(text, "::ffff:");
        write_ipv4(addr->octets + 12, text + 7);
        return;
    }
    find_zeros(addr->octets, &begin, &end);
    text[0] = 0;
    for (int i = 0; i < 8; i++) {
        if (i == begin)
            strcat(text, "::");
        if (i >= begin && i < end)
            continue;
        sprintf(text + strlen(text), i == 0 || i == end ? "%x" : ":%x", get_word(addr->octets + 2 * i));
    }
}

static void write_addr(const struct lk_addr *addr, char *text)
{
    if (addr->version == 4)
        write_ipv4(addr->octets, text);
    else
        write_ipv6(addr, text);
}

ptrdiff_t model_print_addr(const struct lk_addr *addr, char *out, size_t cap)
{
    char text[80];
    if (addr_len(addr) == 0)
        return LK_NO_VERSION;
    write_addr(addr, text);
    return finish(text, out, cap);
}

ptrdiff_t model_print_prefix(const struct lk_prefix *block, char *out, size_t cap)
{
    char text[80];
    if (addr_len(&block->addr) == 0)
        return LK_NO_VERSION;
    if (block->prefix_len > 8 * addr_len(&block->addr))
        return LK_BAD_PREFIX;
    write_addr(&block->addr, text);
    sprintf(text + strlen(text), "/%d", block->prefix_len);
    return finish(text, out, cap);
}

ptrdiff_t model_print_endpoint(const struct lk_endpoint *endpoint, char *out, size_t cap)
{
    char addr[80], text[100];
    if (addr_len(&endpoint->addr) == 0)
        return LK_NO_VERSION;
    write_addr(&endpoint->addr, addr);
    sprintf(text, endpoint->addr.version == 6 ? "[%s]:%d" : "%s:%d", addr, endpoint->port);
    return finish(text, out, cap);
}

ptrdiff_t model_print_mac(const uint8_t *octets, char *out, size_t cap)
{
    char text[40];
    sprintf(text, "%02x-%02x-%02x-%02x-%02x-%02x", octets[0], octets[1], octets[2], octets[3], octets[4], octets[5]);
    return finish(text, out, cap);
}

/* ---- the line of a frame ---- */

static void write_side(const struct lk_endpoint *end, int has_port, char *text, size_t room)
{
    if (has_port)
        model_print_endpoint(end, text, room);
    else
        model_print_addr(&end->addr, text, room);
}

static void write_ends(const struct lk_frame *frame, unsigned transport, char *text)
{
    static const char *const networks[] = {"", "ARP ", "IPv4 ", "IPv6 "};
    int has_ports = transport == LK_UDP || transport == LK_TCP;
    char src[80], dst[80];
    if (addr_len(&frame->src.addr) == 0 || addr_len(&frame->dst.addr) == 0) {
        model_print_mac(frame->ethernet.src, src, sizeof src);
        model_print_mac(frame->ethernet.dst, dst, sizeof dst);
        sprintf(text, "Ethernet %s > %s type=0x%04x", src, dst, frame->ethernet.type);
        return;
    }
    write_side(&frame->src, has_ports, src, sizeof src);
    write_side(&frame->dst, has_ports, dst, sizeof dst);
    sprintf(text, "%s%s > %s", networks[frame->network], src, dst);
}

static void write_tcp(const struct lk_tcp *tcp, char *text)
{
    unsigned flags = tcp->flags;
    sprintf(text, " TCP%s%s%s%s%s%s seq=%u", flags & LK_SYN ? " syn" : "", flags & LK_FIN ? " fin" : "",
            flags & LK_RST ? " rst" : "", flags & LK_PSH ? " psh" : "", flags & LK_ECE ? " ece" : "",
            flags & LK_CWR ? " cwr" : "", tcp->seq_number);
    if (flags & LK_ACK)
        sprintf(text + strlen(text), " ack=%u", tcp->ack_number);
    sprintf(text + strlen(text), " win=%u", tcp->window_len);
    if (flags & LK_URG)
        sprintf(text + strlen(text), " urg=%u", tcp->urgent_at);
}

static void write_network(const struct lk_frame *frame, char *text)
{
    char hardware[40];
    model_print_mac(frame->arp.src_hardware, hardware, sizeof hardware);
    text[0] = 0;
    if (frame->network == LK_ARP)
        sprintf(text, " op=%u hardware=%s", frame->arp.operation, hardware);
    if (frame->network == LK_IPV4 || frame->network == LK_IPV6)
        sprintf(text, " proto=%u", frame->protocol);
    if (frame->is_fragment && text[1] == 'p')
        sprintf(text + strlen(text), " fragment=%u%s", frame->ip.fragment_offset, frame->ip.more_fragments ? "+" : "");
}

/* Open: what a line says of a struct that no call has read. */
ptrdiff_t model_print_frame(const struct lk_frame *frame, char *out, size_t cap)
{
    static const char *const verdicts[] = {
        "", "", " (checksum incorrect)", " (no checksum)", " (partial checksum correct)", " (checksum cut)",
    };
    static const char *const reasons[] = {
        "", " (too short)", " (bad version)", " (bad length)", " (other ARP)", " (port zero)",
        " (bad flags)", " (bad options)", " (header cut)", " (unknown link)",
        " (hops left)", " (bad order)",
    };
    unsigned transport = frame->transport ? frame->transport : frame->rejected;
    char text[400], header[120] = " UDP";
    write_ends(frame, transport, text);
    if (transport == LK_TCP)
        write_tcp(&frame->tcp, header);
    else if (transport == LK_ICMP)
        sprintf(header, " ICMP type=%u code=%u", frame->icmp.type, frame->icmp.code);
    else if (transport == LK_NO_TRANSPORT)
        write_network(frame, header);
    sprintf(text + strlen(text), "%s len=%zu%s%s%s", header, frame->payload_len,
            frame->ipv4_checksum == LK_CHECKSUM_INVALID ? " (header checksum incorrect)" : "",
            verdicts[frame->transport_checksum], reasons[frame->reason]);
    return finish(text, out, cap);
}
