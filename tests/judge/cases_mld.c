/* Cases of multicast listener discovery. */
#include <string.h>
#include "judge.h"

static void emit_report(void)
{
    struct lk_frame headers;
    size_t cap = any_cap(86);
    fill(&headers, sizeof headers);
    headers.src.addr = any_addr(one_in(8) ? any_version() : 6);
    headers.dst.addr = any_addr(one_in(8) ? any_version() : 6);
    both_emit_mld_report(&headers, any_out(cap), cap);
}

/* Hop-by-hop options or destination options before ICMPv6, mostly. Returns their length. */
static size_t put_extension(uint8_t *out, uint8_t *next_header)
{
    const size_t len = 8 * (1 + below(3));
    if (one_in(4)) {
        *next_header = 58;
        return 0;
    }
    *next_header = one_in(4) ? 60 : 0;
    fill(out, len);
    out[0] = one_in(24) ? (uint8_t)any() : 58;
    out[1] = (uint8_t)(one_in(24) ? below(6) : len / 8 - 1);
    return len;
}

/* A frame with a query, mostly: of version 1 or 2, for all groups or for this one. Returns its length. */
static size_t put_query(const struct lk_addr *group, uint8_t *out)
{
    struct lk_addr src = any_addr(6), dst = any_addr(6);
    struct lk_ethernet link;
    struct lk_ip ip = {0};
    struct lk_icmp icmp = {(uint32_t)any(), (uint8_t)(one_in(12) ? 128 + below(4) : 130), (uint8_t)below(2)};
    uint8_t options[32], body[64], next_header;
    const size_t options_len = put_extension(options, &next_header), len = one_in(4) ? below(22) : 16 + 4 * below(6);
    const int from_link = !one_in(6), asks_all = one_in(2);
    size_t at = 14;
    fill(&link, sizeof link);
    fill(body, sizeof body);
    if (from_link)
        memcpy(src.octets, "\xfe\x80\0\0\0\0\0", 8);
    if (one_in(8))
        src.octets[below(3)] ^= (uint8_t)(1u << below(8));
    if (asks_all)
        memset(body, 0, 16);
    else
        memcpy(body, group->octets, 16);
    if (one_in(8))
        body[below(16)] ^= (uint8_t)(1u << below(8));
    ip.hop_limit = one_in(8) ? (uint8_t)below(3) : 1;
    put_ethernet(&link, one_in(24) ? 0x0800 : 0x86dd, out);
    at += put_ip(&ip, &src, &dst, next_header, options_len + 8 + len, 1, out + at);
    memcpy(out + at, options, options_len);
    at += options_len;
    return at + put_icmp(&icmp, &src, &dst, body, len, !one_in(16), out + at);
}

void ask_groups(void)
{
    static uint8_t frame[256];
    struct lk_addr group = any_addr(one_in(16) ? any_version() : 6);
    struct lk_mld_query query;
    size_t len = put_query(&group, frame);
    fill(&query, sizeof query);
    emit_report();
    both_find_mld_query(frame, len, &group, &query);
    both_find_mld_query(frame, one_in(4) ? unused_len() : below(len), &group, &query);
    if (one_in(2))
        frame[below(len)] ^= (uint8_t)(1u << below(8));
    both_find_mld_query(frame, len, &group, &query);
}
