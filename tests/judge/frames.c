/* Makes frames. */
#include <string.h>
#include "judge.h"

struct made made;

/* ---- frames ---- */

/* A transport that ends at `most` or before it. */
static void make_tcp(size_t most)
{
    size_t at = made.transport, len = any_tcp_header(made.octets + at), payload_len = any_len(most - at - len);
    fill(made.octets + at + len, payload_len);
    made.end = at + len + payload_len;
}

static void make_udp(size_t most)
{
    size_t at = made.transport, len = 8 + any_len(most - at - 8), more = one_in(8) ? below(9) : 0;
    if (at + len + more > most)
        more = 0;
    fill(made.octets + at, len + more);
    put_word(made.octets + at, any_port());
    put_word(made.octets + at + 2, any_port());
    put_word(made.octets + at + 4, (unsigned)len);
    made.end = at + len + more;
}

/* The beginning of a packet, as an error quotes it: an IP header, and the first bytes of its payload. Returns the
 * length. */
static size_t make_quoted(uint8_t *out, int is_ipv6)
{
    static const uint8_t protocols[] = {1, 6, 17, 17};
    struct lk_addr src = any_addr(is_ipv6 ? 6 : 4), dst = any_addr(is_ipv6 ? 6 : 4);
    struct lk_ip ip = {0};
    size_t len = below(64), at;
    ip.hop_limit = 1;
    fill(out, 128);
    at = put_ip(&ip, &src, &dst, protocols[below(4)], one_in(4) ? len : 8 + below(1400), 1, out);
    put_word(out + at, any_port());
    put_word(out + at + 2, any_port());
    if (one_in(8) && at == 20)
        out[0] ^= (uint8_t)(1u << below(8));
    return at + len;
}

/* A neighbour solicitation or advertisement, with other options too. */
static size_t make_ndisc(size_t at)
{
    uint8_t *out = made.octets + at;
    struct lk_ndisc ndisc = any_ndisc();
    struct lk_addr any_one = any_addr(6);
    size_t len;
    ndisc.target = any_addr(6);
    len = put_ndisc(&ndisc, &any_one, &any_one, out);
    made.target = at + 8;
    while (one_in(3)) {
        size_t units = one_in(12) ? 0 : 1 + below(3);
        fill(out + len, 8 * units + 2);
        out[len] = (uint8_t)below(4);
        out[len + 1] = (uint8_t)units;
        len += units == 0 ? 2 : 8 * units;
    }
    return len;
}

/* An ICMP message: a query, an error that quotes a packet, neighbour discovery, or any. */
static void make_icmp(size_t most, int is_ipv6)
{
    static const uint8_t echoes[][2] = {{8, 0}, {128, 129}}, errors[][4] = {{3, 11, 12, 5}, {1, 2, 3, 4}};
    size_t at = made.transport, pick = below(8), len = 8;
    uint8_t *out = made.octets + at;
    fill(out, 64);
    if (pick < 3) {
        len += any_len(most - at - 8);
        fill(out, len);
        out[0] = echoes[is_ipv6][below(2)];
        out[1] = (uint8_t)(one_in(16) ? any() : 0);
        put_word(out + 4, any_port());
    } else if (pick < 5) {
        len += make_quoted(out + 8, is_ipv6);
        out[0] = errors[is_ipv6][below(4)];
        out[1] = (uint8_t)below(5);
    } else if (pick < 7 && is_ipv6) {
        len = make_ndisc(at);
    } else {
        len += any_len(most - at - 8);
        fill(out, len);
    }
    made.end = at + len;
}

/* A UDP, TCP or ICMP packet at `at`. Returns its protocol. */
static unsigned make_transport(size_t at, size_t most, int is_ipv6)
{
    size_t pick = below(14);
    made.transport = at;
    if (pick < 5)
        make_udp(most);
    else if (pick < 10)
        make_tcp(most);
    else
        make_icmp(most, is_ipv6);
    if (one_in(64))
        made.end = at + below(24); /* too short for its header, or for its length field */
    return pick < 5 ? 17 : pick < 10 ? 6 : is_ipv6 ? 58 : 1;
}

/* An IPv6 extension header: mostly without segments left, of padding only, or of an atomic fragment or the first of
 * several; some are of a fragment at the highest offset. Returns its length. */
static size_t make_extension(uint8_t *header, uint8_t number)
{
    size_t units = number == 44 ? 0 : one_in(64) ? below(256) : below(4), len = number == 51 ? 8 + 4 * units : 8 + 8 * units;
    fill(header, len);
    if (number != 44)
        header[1] = (uint8_t)units;
    else if (!one_in(6))
        put_word(header + 2, (unsigned)any() & (one_in(3) ? 7 : 6));
    else if (one_in(2))
        put_word(header + 2, 0xfff8 | (unsigned)below(8));
    if (number == 43 && !one_in(8))
        put_word(header + 2, 253 << 8); /* a type for experiments */
    if ((number == 0 || number == 60) && !one_in(3))
        put_word(header + 2, (unsigned)(1 << 8 | (len - 4))); /* padding */
    return len;
}

/* Up to four extension headers and what follows them; hop-by-hop options are mostly first. Returns the number of the
 * first. */
static unsigned make_extended(size_t at, size_t most)
{
    static const uint8_t numbers[] = {0, 44, 43, 51, 60};
    uint8_t first = one_in(3) ? 44 : numbers[below(5)], number = first;
    size_t count = 1 + below(4), begin = at, end = at + 8 + 8 * below(6);
    for (;;) {
        uint8_t *header = made.octets + at;
        at += make_extension(header, number);
        number = numbers[one_in(24) ? 0 : 1 + below(4)];
        if (--count > 0) {
            header[0] = number;
            continue;
        }
        made.upper = make_transport(at, most, 1);
        header[0] = (uint8_t)(one_in(24) ? (unsigned)any() : made.upper);
        if (one_in(24))
            made.end = at - below(24); /* the last header ends after the packet */
        else if (first == 44 && (made.octets[begin + 3] & 1) && one_in(2) && end < made.end)
            made.end = end; /* whole blocks of a fragment that others follow: headers may be missing */
        return first;
    }
}

/* What an IP header at `at` carries. Returns its protocol. */
static unsigned make_carried(size_t at, int is_ipv6)
{
    static const uint8_t others[] = {0, 1, 43, 44, 50, 58, 60, 89};
    size_t pick = below(16), most = (is_ipv6 ? at : 14) + 65535, len;
    if (is_ipv6 && (pick == 13 || pick == 14))
        return make_extended(at, most);
    if (pick < 15)
        return make_transport(at, most, is_ipv6);
    len = any_len(most - at);
    fill(made.octets + at, len);
    made.end = at + len;
    return one_in(4) ? (unsigned)any() & 0xff : others[below(8)];
}

static void make_ipv4(void)
{
    uint8_t *ptr = made.octets + 14;
    size_t header_len = 20 + (one_in(4) ? 4 * below(11) : 0);
    fill(ptr, header_len);
    ptr[0] = (uint8_t)(0x40 | header_len / 4);
    if (!one_in(16))
        put_word(ptr + 6, ((unsigned)any() & 0x8000) * one_in(8) + 0x4000 * one_in(2));
    if (one_in(8))
        ptr[8] = (uint8_t)below(3);
    ptr[9] = (uint8_t)make_carried(14 + header_len, 0);
    put_word(ptr + 2, (unsigned)(made.end - 14));
    memcpy(ptr + 12, any_addr(4).octets, 4);
    memcpy(ptr + 16, any_addr(4).octets, 4);
}

/* Sends a message of neighbour discovery to its target or to the solicited-node group of it, mostly. Some frames to the
 * group are sent to one host. */
static void address_ndisc(uint8_t *header)
{
    static const uint8_t group[13] = {0xff, 2, 0, 0, 0, 0, 0, 0, 0, 0, 0, 1, 0xff}, station[3] = {0x33, 0x33, 0xff};
    const uint8_t *target = made.octets + made.target;
    if (!one_in(16))
        header[7] = 255;
    if (one_in(6))
        memset(header + 8, 0, 16);
    memcpy(header + 24, target, 16);
    if (one_in(4))
        return;
    memcpy(header + 24, group, 13);
    if (one_in(4))
        return;
    memcpy(made.octets, station, 3);
    memcpy(made.octets + 3, target + 13, 3);
}

static void make_ipv6(void)
{
    uint8_t *ptr = made.octets + 14;
    fill(ptr, 8);
    ptr[0] = 0x60 | (ptr[0] & 15);
    ptr[6] = (uint8_t)make_carried(54, 1);
    put_word(ptr + 4, (unsigned)(made.end - 54));
    memcpy(ptr + 8, any_addr(6).octets, 16);
    memcpy(ptr + 24, any_addr(6).octets, 16);
    if (made.target != 0)
        address_ndisc(ptr);
}

static void make_arp(void)
{
    struct lk_arp arp;
    struct lk_addr src = any_addr(4), dst = any_addr(4);
    arp.operation = (uint16_t)(one_in(8) ? any() : 1 + below(2));
    any_hardware(arp.src_hardware);
    any_hardware(arp.dst_hardware);
    made.end = 14 + put_arp(&arp, &src, &dst, made.octets + 14);
}

static void make_fields(void)
{
    size_t pick = below(20);
    made.transport = made.target = made.upper = 0;
    any_hardware(made.octets);
    any_hardware(made.octets + 6);
    put_word(made.octets + 12, pick < 9 ? 0x0800 : pick < 16 ? 0x86dd : pick < 19 ? 0x0806 : (unsigned)any() & 0xffff);
    if (pick < 9) {
        make_ipv4();
    } else if (pick < 16) {
        make_ipv6();
    } else if (pick < 19) {
        make_arp();
    } else {
        made.end = 14 + any_len(2000);
        fill(made.octets + 14, made.end - 14);
    }
    made.len = made.end + (one_in(2) ? 0 : below(one_in(2048) ? 60000 : 30));
    fill(made.octets + made.end, made.len - made.end);
}

/* ---- checksums ---- */

static struct lk_addr addr_at(size_t at, unsigned version)
{
    struct lk_addr addr = {{0}, (uint16_t)version};
    memcpy(addr.octets, made.octets + at, addr_len(&addr));
    return addr;
}

/* Fills in the checksum of `len` bytes of a transport, in one of many ways. */
static void sum_transport(uint8_t *ptr, unsigned protocol, size_t len, size_t field_at, unsigned version)
{
    struct lk_addr src = addr_at(version == 4 ? 26 : 22, version), dst = addr_at(version == 4 ? 30 : 38, version);
    size_t pick = below(24), spare = len - 2 - len % 2;
    unsigned partial = pseudo_sum(&src, &dst, protocol, ptr, len, 0), sum;
    put_word(ptr + field_at, pick == 20 || pick == 19 ? partial : 0);
    if ((pick == 19 || pick == 18) && spare > field_at) { /* the spare word makes it right */
        put_word(ptr + spare, 0);
        put_word(ptr + spare, 0xffff - pseudo_sum(&src, &dst, protocol, ptr, len, len));
    }
    sum = 0xffff - pseudo_sum(&src, &dst, protocol, ptr, len, len);
    if (pick < 18)
        put_word(ptr + field_at, sum == 0 && protocol == 17 ? 0xffff : sum);
    else if (pick == 18 && one_in(2))
        put_word(ptr + field_at, 0xffff);
    else if (pick == 21)
        put_word(ptr + field_at, (unsigned)any() & 0xffff);
    else if (pick == 22)
        put_word(ptr + field_at, 0xffff);
}

/* The checksum of ICMP: right, 0xffff instead of 0, that of a pseudo-header, or any. */
static void sum_icmp(uint8_t *ptr, size_t len, unsigned version)
{
    struct lk_addr src = addr_at(version == 4 ? 26 : 22, version), dst = addr_at(version == 4 ? 30 : 38, version);
    put_word(ptr + 2, 0);
    put_word(ptr + 2, one_in(12) ? (unsigned)any() & 0xffff : 0xffffu - icmp_sum(&src, &dst, ptr, len));
    if (one_in(24))
        put_word(ptr + 2, one_in(2) ? 0xffff : 0);
    if (one_in(48))
        put_word(ptr + 2, pseudo_sum(&src, &dst, version == 4 ? 1 : 58, ptr, len, 0));
}

/* Sums what the fields say, as far as it is there. */
static void sum_fields(void)
{
    uint8_t *ptr = made.octets + 14, *transport = made.octets + made.transport;
    unsigned version = get_word(made.octets + 12) == 0x0800 ? 4 : 6, protocol;
    size_t header_len = 4u * (ptr[0] & 15), len = made.end > made.transport ? made.end - made.transport : 0;
    if (version == 4 && made.len > 34 && header_len >= 20 && 14 + header_len <= made.len) {
        put_word(ptr + 10, 0);
        put_word(ptr + 10, one_in(24) ? (unsigned)any() & 0xffff : 0xffffu - model_checksum(ptr, header_len));
    }
    if (made.transport == 0 || len < 8)
        return;
    protocol = version == 4 ? ptr[9] : made.upper != 0 ? made.upper : ptr[6];
    if (protocol == 6)
        sum_transport(transport, 6, len, 16, version);
    else if (protocol == (version == 4 ? 1 : 58))
        sum_icmp(transport, len, version);
    else if (get_word(transport + 4) >= 8 && get_word(transport + 4) <= len)
        sum_transport(transport, 17, get_word(transport + 4), 6, version);
}

void make_valid(void)
{
    make_fields();
    sum_fields();
}

/* ---- changes ---- */

/* Changes a field of a header: its byte or word becomes 0, a limit, or one more or less. */
static void change_field(void)
{
    size_t from = made.transport != 0 && one_in(2) ? made.transport : one_in(8) ? 0 : 14, at = from + below(24);
    unsigned word = get_word(made.octets + at);
    switch (below(6)) {
    case 0:
        made.octets[at] = one_in(2) ? 0 : 0xff;
        break;
    case 1:
        put_word(made.octets + at, one_in(2) ? 0 : 0xffff);
        break;
    case 2:
        put_word(made.octets + at, word + 1);
        break;
    case 3:
        put_word(made.octets + at, word - 1);
        break;
    case 4:
        made.octets[at] ^= (uint8_t)(1u << below(8));
        break;
    default:
        made.octets[at] = (uint8_t)(made.octets[at] + (one_in(2) ? 0x10 : 0xf0));
    }
}

static void change_len(void)
{
    if (one_in(2))
        made.len = below(made.len + 1);
    else if (one_in(2) && made.len > 0)
        made.len--;
    else
        made.octets[made.len++] = (uint8_t)any();
}

void make_frame(void)
{
    make_fields();
    while (one_in(3))
        change_field();
    sum_fields();
    while (one_in(8) && made.len > 0)
        made.octets[below(made.len)] ^= (uint8_t)(1u << below(8));
    if (one_in(12))
        change_len();
    if (one_in(200)) {
        made.len = any_len(3000);
        fill(made.octets, made.len);
    }
}
