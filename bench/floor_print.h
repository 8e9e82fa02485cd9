/* lk_print_frame by hand: each part is appended where the one before ends. */
#include <stdio.h>

/* The text of each byte, and of each number of two digits. */
static struct {
    char digits[3];
    uint8_t len;
} octets[256];
static char pairs[200];

__attribute__((constructor)) static void fill_texts(void)
{
    for (int i = 0; i < 256; i++) {
        char text[4];
        octets[i].len = (uint8_t)snprintf(text, sizeof text, "%d", i);
        memcpy(octets[i].digits, text, 3);
    }
    for (int i = 0; i < 100; i++) {
        pairs[2 * i] = (char)('0' + i / 10);
        pairs[2 * i + 1] = (char)('0' + i % 10);
    }
}

INLINE char *append(char *out, const char *text, size_t len)
{
    memcpy(out, text, len);
    return out + len;
}

#define TEXT(text) (out = append(out, text, sizeof text - 1))

INLINE char *append_number(char *out, uint64_t number)
{
    char digits[20];
    size_t at = sizeof digits;
    for (; number >= 100; number /= 100)
        memcpy(digits + (at -= 2), pairs + 2 * (number % 100), 2);
    if (number >= 10)
        memcpy(digits + (at -= 2), pairs + 2 * number, 2);
    else
        digits[--at] = (char)('0' + number);
    for (; at < sizeof digits; at++)
        *out++ = digits[at];
    return out;
}

INLINE char *append_hex(char *out, uint8_t byte, const char *digits)
{
    *out++ = digits[byte >> 4];
    *out++ = digits[byte & 15];
    return out;
}

INLINE char *append_hardware(char *out, const uint8_t *hardware)
{
    for (int i = 0; i < 6; i++) {
        out = append_hex(out, hardware[i], "0123456789abcdef");
        *out++ = '-';
    }
    return out - 1;
}

INLINE char *append_ipv4(char *out, const uint8_t *addr)
{
    for (int i = 0; i < 4; i++) {
        memcpy(out, octets[addr[i]].digits, 3);
        out += octets[addr[i]].len;
        *out++ = '.';
    }
    return out - 1;
}

/* The first group of the longest run of at least two zeros, of equal ones the first, and the group after it. */
INLINE void longest_zeros(const uint8_t *addr, int *from, int *to)
{
    *from = *to = -1;
    for (int i = 0, begin = 0; i < 8; i++) {
        if (addr[2 * i] | addr[2 * i + 1])
            begin = i + 1;
        else if (i > begin && i + 1 - begin > *to - *from) {
            *from = begin;
            *to = i + 1;
        }
    }
}

INLINE char *append_group(char *out, const uint8_t *group)
{
    static const char digits[] = "0123456789abcdef";
    if (group[0] >> 4)
        *out++ = digits[group[0] >> 4];
    if (group[0])
        *out++ = digits[group[0] & 15];
    if (group[0] || group[1] >> 4)
        *out++ = digits[group[1] >> 4];
    *out++ = digits[group[1] & 15];
    return out;
}

/* As RFC 5952 has it. */
static OUTLINE char *append_ipv6(char *out, const uint8_t *addr)
{
    int from, to;
    if (!load_64(addr) && load_32(addr + 8) == 0xffff0000) {
        TEXT("::ffff:");
        return append_ipv4(out, addr + 12);
    }
    longest_zeros(addr, &from, &to);
    for (int i = 0; i < 8; i++) {
        if (i == from) {
            TEXT("::");
            i = to - 1;
            continue;
        }
        if (i && i != to)
            *out++ = ':';
        out = append_group(out, addr + 2 * i);
    }
    return out;
}

INLINE char *append_end(char *out, const struct lk_endpoint *end, int has_port)
{
    if (end->addr.version == 4) {
        out = append_ipv4(out, end->addr.octets);
    } else {
        if (has_port)
            *out++ = '[';
        out = append_ipv6(out, end->addr.octets);
        if (has_port)
            *out++ = ']';
    }
    if (!has_port)
        return out;
    *out++ = ':';
    return append_number(out, end->port);
}

INLINE int is_version(const struct lk_addr *addr) { return addr->version == 4 || addr->version == 6; }

INLINE char *append_ends(char *out, const struct lk_frame *frame, uint8_t transport)
{
    int has_ports = transport == LK_UDP || transport == LK_TCP;
    if (!is_version(&frame->src.addr) || !is_version(&frame->dst.addr)) {
        TEXT("Ethernet ");
        out = append_hardware(out, frame->ethernet.src);
        TEXT(" > ");
        out = append_hardware(out, frame->ethernet.dst);
        TEXT(" type=0x");
        out = append_hex(out, frame->ethernet.type >> 8, "0123456789abcdef");
        return append_hex(out, frame->ethernet.type & 0xff, "0123456789abcdef");
    }
    if (frame->network == LK_IPV4)
        TEXT("IPv4 ");
    else if (frame->network == LK_IPV6)
        TEXT("IPv6 ");
    else if (frame->network == LK_ARP)
        TEXT("ARP ");
    out = append_end(out, &frame->src, has_ports);
    TEXT(" > ");
    return append_end(out, &frame->dst, has_ports);
}

INLINE char *append_tcp(char *out, const struct lk_tcp *tcp)
{
    TEXT(" TCP");
    if (tcp->flags & LK_SYN)
        TEXT(" syn");
    if (tcp->flags & LK_FIN)
        TEXT(" fin");
    if (tcp->flags & LK_RST)
        TEXT(" rst");
    if (tcp->flags & LK_PSH)
        TEXT(" psh");
    if (tcp->flags & 64)
        TEXT(" ece");
    if (tcp->flags & 128)
        TEXT(" cwr");
    TEXT(" seq=");
    out = append_number(out, tcp->seq_number);
    if (tcp->flags & LK_ACK) {
        TEXT(" ack=");
        out = append_number(out, tcp->ack_number);
    }
    TEXT(" win=");
    out = append_number(out, tcp->window_len);
    if (tcp->flags & 32) {
        TEXT(" urg=");
        out = append_number(out, tcp->urgent_at);
    }
    return out;
}

/* What is printed where there is no transport header. */
static OUTLINE char *append_network(char *out, const struct lk_frame *frame)
{
    if (frame->network == LK_ARP) {
        TEXT(" op=");
        out = append_number(out, frame->arp.operation);
        TEXT(" hardware=");
        return append_hardware(out, frame->arp.src_hardware);
    }
    if (frame->network == LK_NO_NETWORK)
        return out;
    TEXT(" proto=");
    out = append_number(out, frame->protocol);
    if (frame->is_fragment) {
        TEXT(" fragment=");
        out = append_number(out, frame->ip.fragment_offset);
        if (frame->ip.more_fragments)
            *out++ = '+';
    }
    return out;
}

INLINE char *append_header(char *out, const struct lk_frame *frame, uint8_t transport)
{
    switch (transport) {
    case LK_UDP:
        return TEXT(" UDP");
    case LK_TCP:
        return append_tcp(out, &frame->tcp);
    case LK_ICMP:
        TEXT(" ICMP type=");
        out = append_number(out, frame->icmp.type);
        TEXT(" code=");
        return append_number(out, frame->icmp.code);
    }
    return append_network(out, frame);
}

static OUTLINE char *append_notes(char *out, const struct lk_frame *frame)
{
    static const char *const verdicts[] = {"", "", " (checksum incorrect)", " (no checksum)", " (partial checksum correct)",
                                           " (checksum cut)"};
    static const char *const reasons[] = {"", " (too short)", " (bad version)", " (bad length)", " (other ARP)",
                                          " (port zero)", " (bad flags)", " (bad options)", " (header cut)",
                                          " (unknown link)", " (hops left)", " (bad order)"};
    if (frame->ipv4_checksum == LK_CHECKSUM_INVALID)
        TEXT(" (header checksum incorrect)");
    if (frame->transport_checksum < sizeof verdicts / sizeof *verdicts)
        out = append(out, verdicts[frame->transport_checksum], strlen(verdicts[frame->transport_checksum]));
    if (frame->reason < sizeof reasons / sizeof *reasons)
        out = append(out, reasons[frame->reason], strlen(reasons[frame->reason]));
    return out;
}

INLINE char *append_line(char *out, const struct lk_frame *frame)
{
    uint8_t transport = frame->transport ? frame->transport : frame->rejected;
    out = append_ends(out, frame, transport);
    out = append_header(out, frame, transport);
    TEXT(" len=");
    out = append_number(out, frame->payload_len);
    if (frame->ipv4_checksum > LK_CHECKSUM_VALID || frame->transport_checksum > LK_CHECKSUM_VALID || frame->reason)
        out = append_notes(out, frame);
    return out;
}

ptrdiff_t lk_print_frame(const struct lk_frame *frame, char *out, size_t cap)
{
    char line[LK_FRAME_TEXT];
    char *to = reaches(cap, LK_FRAME_TEXT) ? out : line;
    size_t len = (size_t)(append_line(to, frame) - to);
    if (!reaches(cap, len))
        return LK_NO_ROOM;
    if (to == line)
        memcpy(out, line, len);
    if (cap > len)
        out[len] = 0;
    return (ptrdiff_t)len;
}
