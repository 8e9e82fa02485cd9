/* Cases of NAT with a table: many packets in a row, of few endpoints, with time between them. */
#include <string.h>
#include "judge.h"

enum { PORTS = 140 };

static struct lk_nat nat;
static struct lk_mapping mappings[LK_MAPPINGS(PORTS)];
static size_t mapping_count;
static uint64_t now;
static uint8_t frame[MODEL_ROOM];

/* The first bytes of a packet that was translated, which an error may quote. */
struct kept {
    uint8_t octets[200];
    size_t len;
};

static struct kept left, entered;

static void keep_packet(struct kept *kept, const uint8_t *frame, size_t len)
{
    kept->len = len - 14 < sizeof kept->octets ? len - 14 : sizeof kept->octets;
    memcpy(kept->octets, frame + 14, kept->len);
}

/* Few outside ports, mostly about a port that inside endpoints have. */
static void begin_nat(void)
{
    forget_mappings();
    memset(mappings, 0, sizeof mappings);
    left.len = entered.len = 0;
    fill(&nat, sizeof nat);
    mapping_count = one_in(16) ? below(LK_MAPPINGS(PORTS)) : below(LK_MAPPINGS(8));
    nat.udp_timeout = below(60);
    nat.tcp_timeout = one_in(8) ? UINT64_MAX : below(200);
    nat.tcp_transitory_timeout = below(40);
    nat.icmp_timeout = below(40);
    nat.first_port = (uint16_t)(one_in(16) ? 0 : one_in(4) ? 65536 - below(12) : any_port() - below(4));
    memcpy(nat.outside, any_addr(4).octets, 4);
    now = one_in(8) ? UINT64_MAX - below(1000) : below(1000);
}

/* A UDP packet, TCP segment or echo message over IPv4, mostly. */
static void make_packet(void)
{
    struct lk_frame frame;
    for (int tries = 0; tries < 6; tries++) {
        if (one_in(8))
            make_frame();
        else
            make_valid();
        if (nat_rejection(made.octets, made.len, &frame) == LK_NOT_REJECTED)
            return;
    }
}

/* Sends it to an outside port, mostly. */
static void address_packet(void)
{
    struct lk_frame frame;
    struct lk_endpoint end = {{{0}, 4}, (uint16_t)(nat.first_port + below(mapping_count / LK_MAPPINGS(1) + 2))};
    memcpy(end.addr.octets, nat.outside, 4);
    if (nat_rejection(made.octets, made.len, &frame) == LK_NOT_REJECTED && end.port != 0 && !one_in(16))
        write_end(made.octets, &frame, LK_DESTINATION, &end);
}

static uint8_t *copy_made(void)
{
    return memcpy(frame, made.octets, made.len);
}

static void translate_out(size_t len)
{
    if (both_translate_out(&nat, mappings, mapping_count, now, copy_made(), len) == LK_NOT_REJECTED)
        keep_packet(&left, frame, len);
}

static void translate_in(size_t len)
{
    if (both_translate_in(&nat, mappings, mapping_count, now, copy_made(), len) == LK_NOT_REJECTED)
        keep_packet(&entered, frame, len);
}

/* Any mappings: what comes is open, but nothing outside may be accessed. */
static void translate_by_anything(void)
{
    struct lk_mapping *placed;
    fill(mappings, mapping_count * sizeof *mappings);
    make_packet();
    CALL(lk_translate_out);
    given("mappings", mappings, mapping_count * sizeof *mappings);
    placed = room(mappings, mapping_count * sizeof *mappings);
    given("frame", made.octets, made.len);
    end_call(1, lk_translate_out(&nat, placed, mapping_count, now, room(made.octets, made.len), made.len) >= 0);
    address_packet();
    CALL(lk_translate_in);
    given("mappings", mappings, mapping_count * sizeof *mappings);
    placed = room(mappings, mapping_count * sizeof *mappings);
    given("frame", made.octets, made.len);
    end_call(1, lk_translate_in(&nat, placed, mapping_count, now, room(made.octets, made.len), made.len) >= 0);
    CALL(lk_shrink_reach);
    given("mappings", mappings, mapping_count * sizeof *mappings);
    lk_shrink_reach(&nat, room(mappings, mapping_count * sizeof *mappings), mapping_count, now);
}

/* Another packet: a later fragment, another protocol, or another ICMP message. */
static void make_other(struct kept *kept)
{
    switch (below(3)) {
    case 0: kept->octets[7]++; break;
    case 1: kept->octets[9] = 47; break;
    default: kept->octets[4 * (kept->octets[0] & 15)] ^= 8; break;
    }
}

/* Makes an ICMP error about a packet that was translated: from a host, or to the outside address. Some routers lower the
 * hop limit in what they quote, and leave the checksum of the header. */
static void make_error(struct kept kept, int is_in)
{
    static const uint8_t types[] = {3, 3, 11, 12, 5, 4};
    struct lk_addr src = any_addr(4), dst = any_addr(4);
    struct lk_icmp icmp = {0, types[below(6)], (uint8_t)below(5)};
    struct lk_ip ip = {0};
    size_t len = one_in(4) ? below(kept.len + 1) : kept.len, at;
    if (is_in && !one_in(8))
        memcpy(dst.octets, nat.outside, 4);
    ip.hop_limit = 9;
    if (one_in(4))
        kept.octets[8]--;
    if (one_in(8))
        make_other(&kept);
    put_word(made.octets + 12, 0x0800);
    at = 14 + put_ip(&ip, &src, &dst, 1, 8 + len, 1, made.octets + 14);
    at += put_icmp(&icmp, &src, &dst, kept.octets, len, 1, made.octets + at);
    made.len = at;
    if (one_in(16)) {
        made.octets[34 + below(at - 34)] ^= (uint8_t)(1u << below(8));
        if (one_in(2))
            write_icmp_sum(made.octets + 34, at - 34);
    }
}

static void pass_time(void)
{
    uint64_t step = one_in(2) ? 0 : below(one_in(8) ? 100 : 12);
    now = step > UINT64_MAX - now ? UINT64_MAX : now + step;
}

void translate_frames(void)
{
    size_t steps = 4 + below(one_in(16) ? 200 : 24);
    begin_nat();
    while (steps-- > 0) {
        make_packet();
        if (one_in(4) && left.len != 0) {
            make_error(left, 1);
            translate_in(made.len);
        } else if (one_in(4) && entered.len != 0) {
            make_error(entered, 0);
            translate_out(made.len);
        } else if (one_in(2)) {
            translate_out(made.len);
        } else {
            address_packet();
            translate_in(made.len);
        }
        if (one_in(8))
            both_shrink_reach(&nat, mappings, mapping_count, now);
        pass_time();
    }
    if (one_in(64))
        translate_out(unused_len());
    if (one_in(64))
        translate_in(unused_len());
    forget_mappings();
    both_translate_out(&nat, mappings, unused_len(), now, copy_made(), made.len);
    both_translate_in(&nat, mappings, unused_len(), now, copy_made(), made.len);
    both_shrink_reach(&nat, mappings, unused_len(), now);
    if (one_in(32))
        translate_by_anything();
}
