/* Cases of ICMP: messages, neighbour discovery and errors. */
#include <string.h>
#include "judge.h"

static uint8_t payload[MODEL_ROOM], measured[MODEL_ROOM];

/* ---- arguments ---- */

static size_t any_payload_len(size_t most)
{
    return one_in(16) ? one_in(4) ? unused_len() : most + below(3) - 1 : any_len(most + 1);
}

static struct lk_frame any_headers(void)
{
    struct lk_frame headers;
    unsigned version = one_in(2) ? 4 : 6;
    memset(&headers, 0, sizeof headers);
    any_hardware(headers.ethernet.src);
    any_hardware(headers.ethernet.dst);
    headers.src.addr = any_addr(one_in(24) ? any_version() : version);
    headers.dst.addr = any_addr(one_in(24) ? any_version() : version);
    fill(&headers.icmp, sizeof headers.icmp);
    headers.ip.hop_limit = one_in(24) ? 0 : 64;
    headers.ip.dscp = (uint8_t)(one_in(24) ? 64 : below(64));
    headers.ip.dont_fragment = (uint8_t)below(2);
    headers.ip.more_fragments = one_in(24);
    headers.ip.protocol = (uint8_t)any();
    return headers;
}

/* ---- messages ---- */

static void emit_icmp_frame(const struct lk_frame *headers)
{
    size_t len = any_payload_len(headers->src.addr.version == 4 ? 65507 : 65527), cap;
    fill(payload, placed_len(len));
    cap = any_cap(model_emit_icmp_frame(headers, payload, len, measured, sizeof measured));
    both_emit_icmp_frame(headers, payload, len, any_out(cap), cap);
    cap = any_cap(model_emit_icmp_packet(headers, payload, len, measured, sizeof measured));
    both_emit_icmp_packet(headers, payload, len, any_out(cap), cap);
}

/* Any number but 0 means that a checksum is computed. */
static void emit_message(const struct lk_frame *headers)
{
    static const int values[] = {0, 1, -1, 0x100, 0x10000};
    size_t len = any_payload_len(65527), cap;
    fill(payload, placed_len(len));
    cap = any_cap(placed_len(len) == len ? (ptrdiff_t)len + 8 : 0);
    both_emit_icmp(&headers->icmp, &headers->src.addr, &headers->dst.addr, payload, len, values[below(5)],
                   any_out(cap), cap);
}

void emit_icmp(void)
{
    struct lk_frame headers = any_headers();
    emit_icmp_frame(&headers);
    emit_message(&headers);
}

/* ---- neighbour discovery ---- */

static void read_one(size_t len)
{
    struct lk_ndisc ndisc = any_ndisc();
    both_find_ndisc(made.octets, len, &ndisc);
}

static void emit_ndisc(void)
{
    struct lk_frame headers = any_headers();
    struct lk_ndisc ndisc = any_ndisc();
    size_t cap;
    if (!one_in(8)) {
        headers.src.addr = any_addr(6);
        headers.dst.addr = any_addr(6);
    }
    cap = any_cap(model_emit_ndisc_frame(&headers, &ndisc, measured, sizeof measured));
    both_emit_ndisc_frame(&headers, &ndisc, any_out(cap), cap);
}

/* Frames of neighbour discovery, mostly. */
void find_ndisc(void)
{
    for (int tries = 0; tries < 12; tries++) {
        make_frame();
        if (made.target != 0)
            break;
    }
    read_one(made.len);
    if (one_in(64))
        read_one(unused_len());
    emit_ndisc();
}

/* ---- errors ---- */

static struct lk_interface any_interface(void)
{
    struct lk_interface own;
    fill(&own, sizeof own);
    own.ipv4 = any_addr(one_in(48) ? any_version() : 4);
    own.ipv6 = any_addr(one_in(48) ? any_version() : 6);
    any_hardware(own.hardware);
    if (!one_in(8))
        memcpy(own.hardware, made.octets, 6);
    return own;
}

static void emit_one(size_t len)
{
    struct lk_interface own = any_interface();
    int problem = (int)(one_in(16) ? any() : below(8));
    uint32_t mtu = one_in(4) ? (uint32_t)any() : (uint32_t)(made.len < 14 ? 0 : made.len - 14 - below(4));
    size_t cap = any_cap(model_emit_icmp_error(&own, problem, mtu, made.octets, len, measured, sizeof measured));
    both_emit_icmp_error(&own, problem, mtu, made.octets, len, any_out(cap), cap);
}

/* Puts up to four extension headers between the IPv6 header and its payload. A last one is mostly whole, and a fragment
 * header mostly that of a first fragment. */
static void put_headers(void)
{
    static const uint8_t numbers[] = {0, 43, 44, 44, 44, 44, 51, 60, 60, 135, 139, 140};
    const unsigned payload_len = get_word(made.octets + 18);
    uint8_t headers[4 * 32];
    size_t len = 0, number_at = 20;
    if (made.len < 54 || made.octets[12] != 0x86 || payload_len > 65000 || made.len > MODEL_ROOM - sizeof headers)
        return;
    fill(headers, sizeof headers);
    for (size_t count = 1 + below(4), number = one_in(2) ? 58 : made.octets[20]; count > 0; count--) {
        const size_t units = 1 + below(4);
        uint8_t *header = headers + len, next = numbers[below(sizeof numbers)];
        *(number_at == 20 ? made.octets + 20 : headers + number_at) = next;
        number_at = len;
        header[0] = (uint8_t)number;
        if (next == 44)
            put_word(header + 2, one_in(2) ? 8 * (1 + below(3)) : below(8));
        else if (!one_in(32))
            header[1] = (uint8_t)(next == 51 ? 2 * units - 2 : units - 1);
        len += next == 44 ? 8 : 8 * units;
    }
    memmove(made.octets + 54 + len, made.octets + 54, made.len - 54);
    memcpy(made.octets + 54, headers, len);
    made.len += len;
    put_word(made.octets + 18, (unsigned)(payload_len + len));
}

/* Puts an extension header after the IPv6 header, or gives the ICMP message another type. Mostly both have numbers at
 * the bounds of those that get no error. */
static void change_number(void)
{
    static const uint8_t headers[] = {0, 43, 44, 50, 51, 52, 60, 134, 135, 139, 140, 141};
    static const uint8_t types[] = {0, 1, 7, 8, 9, 12, 13, 18, 19, 127, 128, 136, 137, 138, 255};
    if (made.len < 62)
        return;
    if (one_in(2) && made.octets[12] == 0x86)
        made.octets[20] = headers[below(sizeof headers)];
    else if (made.transport != 0)
        made.octets[made.transport] = one_in(4) ? (uint8_t)any() : types[below(sizeof types)];
}

void emit_error(void)
{
    make_frame();
    if (one_in(4))
        change_number();
    if (one_in(3))
        put_headers();
    emit_one(made.len);
    if (one_in(64))
        emit_one(unused_len());
}
