/* Makes values of headers. Few addresses and ports are common, so that they often match those of a host. */
#include <string.h>
#include "judge.h"

/* ---- values ---- */

void any_hardware(uint8_t *octets)
{
    static const uint8_t common[][6] = {
        {2, 0, 0, 0, 0, 1}, {2, 0, 0, 0, 0, 2}, {0xff, 0xff, 0xff, 0xff, 0xff, 0xff}, {1, 0, 0x5e, 0, 0, 1}, {0},
    };
    size_t pick = below(20);
    fill(octets, 6);
    if (pick < 19)
        memcpy(octets, common[pick < 15 ? pick % 2 : pick - 14 < 5 ? pick - 14 : 0], 6);
}

struct lk_addr any_addr(unsigned version)
{
    static const char *const ipv4[] = {
        "0.0.0.0", "0.1.2.3", "127.0.0.1", "224.0.0.1", "239.255.255.255", "240.0.0.1", "255.255.255.255", "1.0.0.0",
    };
    static const char *const ipv6[] = {
        "::", "::1", "::ffff:192.0.2.1", "ff02::1", "ff00::", "fe80::1", "::2", "2001:db8:0:0:1::",
    };
    const char *text = version == 4 ? ipv4[below(8)] : ipv6[below(8)];
    struct lk_addr addr = {{0}, (uint16_t)version};
    size_t pick = below(16);
    if (pick < 12)
        text = version == 4 ? (pick % 2 ? "192.0.2.1" : "192.0.2.2") : pick % 2 ? "2001:db8::1" : "2001:db8::2";
    if (addr_len(&addr) != 0)
        model_parse_addr(text, strlen(text), &addr);
    if (pick == 15)
        fill(addr.octets, addr_len(&addr));
    if (pick == 14) /* beside a special address */
        addr.octets[one_in(2) ? 0 : addr_len(&addr) - (addr_len(&addr) != 0)] ^= (uint8_t)(1u << below(8));
    return addr;
}

/* Mostly 4 or 6, seldom another number, or one of which only the lowest byte is 4 or 6. */
unsigned any_version(void)
{
    return one_in(16) ? (unsigned)below(8) + (one_in(4) ? 256 : 0) : one_in(64) ? (unsigned)any() & 0xffff : one_in(2) ? 4 : 6;
}

unsigned any_port(void)
{
    static const unsigned common[] = {7, 80, 443, 5000};
    return one_in(24) ? 0 : one_in(6) ? (unsigned)any() & 0xffff : common[below(4)];
}

struct lk_host any_host_for(const struct lk_frame *frame)
{
    static uint16_t ports[4], udp_ports[4];
    struct lk_host host;
    fill(&host, sizeof host);
    fill(ports, sizeof ports);
    fill(udp_ports, sizeof udp_ports);
    host.open_ports = ports;
    host.open_port_count = below(5);
    host.open_udp_ports = udp_ports;
    host.open_udp_port_count = below(5);
    host.ipv4 = any_addr(one_in(100) ? any_version() : 4);
    host.ipv6 = any_addr(one_in(100) ? any_version() : 6);
    any_hardware(host.hardware);
    host.echo_port = (uint16_t)any_port();
    host.window_scale = (uint8_t)(one_in(8) ? any() : below(17));
    host.is_router = (uint8_t)(one_in(2) ? 0 : one_in(2) ? 1 : any());
    if (!one_in(8))
        memcpy(host.hardware, frame->ethernet.dst, 6);
    if (!one_in(8) && frame->dst.addr.version == 4)
        host.ipv4 = frame->dst.addr;
    if (!one_in(8) && frame->dst.addr.version == 6)
        host.ipv6 = frame->dst.addr;
    if (!one_in(4))
        host.echo_port = frame->dst.port;
    if (!one_in(4))
        ports[below(4)] = frame->dst.port;
    if (!one_in(3))
        udp_ports[below(4)] = frame->dst.port;
    if (made.target != 0 && !one_in(4))
        memcpy(host.ipv6.octets, made.octets + made.target, 16);
    if (made.target != 0 && host.ipv6.version == 6 && (made.octets[0] & 1) != 0 && !one_in(4))
        memcpy(made.octets + 3, host.ipv6.octets + 13, 3);
    return host;
}

/* ---- neighbour discovery ---- */

struct lk_ndisc any_ndisc(void)
{
    struct lk_ndisc ndisc;
    fill(&ndisc, sizeof ndisc);
    ndisc.target = any_addr(one_in(48) ? any_version() : 6);
    any_hardware(ndisc.hardware);
    ndisc.has_hardware = (uint8_t)(one_in(2) ? 0 : one_in(2) ? 1 : any());
    ndisc.is_advert = (uint8_t)(one_in(2) ? 0 : one_in(2) ? 1 : any());
    ndisc.is_router = (uint8_t)(one_in(2) ? 0 : any());
    ndisc.is_solicited = (uint8_t)(one_in(2) ? 0 : any());
    ndisc.overrides = (uint8_t)(one_in(2) ? 0 : any());
    return ndisc;
}

/* ---- TCP options ---- */

static size_t any_option(uint8_t *out)
{
    static const uint8_t kinds[] = {0, 1, 2, 3, 4, 5, 8}, lens[] = {1, 1, 4, 3, 2, 10, 10};
    size_t pick = below(20) % 8, len;
    fill(out, 44);
    if (pick == 0 && !one_in(4))
        pick = 1;
    if (pick == 7) { /* another kind */
        out[1] = (uint8_t)(2 + below(6));
        return out[1];
    }
    out[0] = kinds[pick];
    len = lens[pick] + (out[0] == 5 ? 8 * below(4) : 0);
    if (len > 1)
        out[1] = (uint8_t)(one_in(100) ? below(44) : len + (one_in(100) ? 1 : 0) - (one_in(100) ? 1 : 0));
    if (out[0] == 3 && !one_in(4))
        out[2] %= 17;
    return len;
}

/* The list of most segments: a timestamp after two bytes of no operation (RFC 7323, appendix A), or before two zeros.
 * Returns its length. */
static size_t usual_options(uint8_t *out)
{
    static const uint8_t kinds[] = {1, 1, 8, 10};
    size_t before = one_in(2) ? 2 : 0;
    fill(out, 10 + before);
    memcpy(out, kinds + 2 - before, 2 + before);
    memset(out + 10 + before, 0, 2 - before);
    return 12;
}

/* Puts options into at most 40 bytes, and returns their length, a multiple of 4. */
static size_t any_options(uint8_t *out)
{
    uint8_t room[44 * 12];
    size_t len = 0, most = one_in(3) ? 0 : 4 * below(11);
    if (one_in(4))
        return usual_options(out);
    while (len < most)
        len += any_option(room + len);
    if (!one_in(16))
        while (len > most && len > 0) { /* ends with padding, and not within an option */
            size_t at = 0, next = 0;
            while (next < len) {
                at = next;
                next += room[at] <= 1 ? 1 : room[at + 1] >= 2 ? room[at + 1] : 2;
            }
            len = at;
        }
    for (size_t i = len; i < most; i++)
        room[i] = (uint8_t)below(2);
    memcpy(out, room, most);
    return most;
}

static unsigned any_flags(void)
{
    static const uint8_t common[] = {LK_SYN, LK_SYN, LK_SYN | LK_ACK, LK_ACK, LK_ACK | LK_PSH, LK_FIN | LK_ACK, LK_FIN,
                                     LK_RST, LK_RST | LK_ACK, LK_PSH, LK_SYN | LK_ECE | LK_CWR, 0};
    unsigned flags = one_in(8) ? (unsigned)any() & 0xff : common[below(12)];
    return one_in(8) ? flags ^ 1u << below(8) : flags;
}

size_t any_tcp_header(uint8_t *out)
{
    size_t len = 20 + any_options(out + 20);
    fill(out, 20);
    put_word(out, any_port());
    put_word(out + 2, any_port());
    if (one_in(2))
        put_word(out + 18, 0); /* no urgent pointer */
    out[12] = (uint8_t)(len / 4 << 4 | (one_in(8) ? below(16) : 0));
    out[13] = (uint8_t)any_flags();
    return len;
}
