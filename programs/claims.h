/* Whether another host has an address: what a host or a router asks and tells on its link, and what it hears (RFC 5227; RFC
 * 4862, section 5.4). */
#ifndef CLAIMS_H
#define CLAIMS_H

#include "listener.h"

/* that with a neighbour solicitation of 32 bytes */
enum { LONGEST_REQUEST = LK_ETHERNET_HEADER_LEN + LK_IPV6_HEADER_LEN + 32 };
/* An address is used if nobody else has said PROBE_TIME after the question that he has it. One that is used is announced
 * again at a conflict, at most once in BETWEEN_CONFLICTS (RFC 5227, section 2.4 c). In milliseconds. */
enum { PROBE_TIME = 1000, BETWEEN_CONFLICTS = 10000 };

/* Addresses a question to all hosts that may have the address: over IPv6 to its solicited-node group (RFC 4291, section
 * 2.7.1; RFC 2464, section 7). */
static inline void ask_all(struct lk_frame *request)
{
    memset(request->ethernet.dst, 0xff, 6);
    if (request->dst.addr.version == 4)
        return;
    request->dst.addr = solicited_node(&request->dst.addr);
    memset(request->ethernet.dst, 0x33, 2);
    memcpy(request->ethernet.dst + 2, request->dst.addr.octets + 12, 4);
}

/* Writes an ARP request or a neighbour solicitation for `target` to this Ethernet address, or null: to all hosts. Returns
 * its length. One from `::` has no Ethernet address: it asks whether `target` is unused (RFC 4861, section 4.3). */
static inline size_t write_request(const uint8_t *own, const struct lk_addr *src, const struct lk_addr *target,
                                   const uint8_t *hardware, uint8_t out[LONGEST_REQUEST])
{
    struct lk_ndisc solicitation = {.target = *target, .has_hardware = (uint8_t)lk_is_unicast(src)};
    struct lk_frame request = {.src = {.addr = *src}, .dst = {.addr = *target}, .arp = {.operation = LK_ARP_REQUEST}};
    memcpy(request.ethernet.src, own, 6);
    memcpy(request.arp.src_hardware, own, 6);
    memcpy(solicitation.hardware, own, 6);
    if (hardware != NULL)
        memcpy(request.ethernet.dst, hardware, 6);
    else
        ask_all(&request);
    ptrdiff_t len = src->version == 4 ? lk_emit_arp_frame(&request, out, LONGEST_REQUEST)
                                      : lk_emit_ndisc_frame(&request, &solicitation, out, LONGEST_REQUEST);
    return len > 0 ? (size_t)len : 0;
}

/* Writes the question whether another host has an address (RFC 5227, section 2.1.1; RFC 4862, section 5.4.2). */
static inline size_t write_probe(const uint8_t *own, const struct lk_addr *addr, uint8_t out[LONGEST_REQUEST])
{
    const struct lk_addr none = {.version = addr->version};
    return write_request(own, &none, addr, NULL, out);
}

/* Writes what tells all hosts the Ethernet address: an ARP announcement (RFC 5227, section 3), or an unsolicited
 * advertisement (RFC 4861, section 7.2.6). */
static inline size_t write_announcement(const uint8_t *own, const struct lk_addr *addr, int is_router,
                                        uint8_t out[LONGEST_REQUEST])
{
    static const struct lk_addr all_nodes = {.version = 6, .octets = {0xff, 2, [15] = 1}};
    static const uint8_t group[6] = {0x33, 0x33, 0, 0, 0, 1};
    struct lk_frame headers = {.src = {.addr = *addr}, .dst = {.addr = all_nodes}};
    struct lk_ndisc advert = {
        .target = *addr, .has_hardware = 1, .is_advert = 1, .is_router = (uint8_t)is_router, .overrides = 1};
    if (addr->version == 4)
        return write_request(own, addr, addr, NULL, out);
    memcpy(headers.ethernet.src, own, 6);
    memcpy(headers.ethernet.dst, group, 6);
    memcpy(advert.hardware, own, 6);
    ptrdiff_t len = lk_emit_ndisc_frame(&headers, &advert, out, LONGEST_REQUEST);
    return len > 0 ? (size_t)len : 0;
}

/* Whether a frame says that another host has an address, or while it `is_probed` that another one asks for it too (RFC 5227,
 * section 2.1.1; RFC 4862, sections 5.4.3 and 5.4.4). Stores the Ethernet address of that host. */
static inline int is_claimed(const struct lk_addr *addr, const uint8_t *own, int is_probed, const struct lk_frame *in,
                             const uint8_t *frame, size_t len, uint8_t other[6])
{
    static const uint8_t zeros[sizeof addr->octets];
    const struct lk_addr *claimed = NULL;
    struct lk_ndisc ndisc;
    int asks = is_probed && memcmp(in->src.addr.octets, zeros, sizeof zeros) == 0;
    if (in->network == LK_ARP && in->reason == LK_READ) {
        claimed = asks ? &in->dst.addr : &in->src.addr;
        memcpy(other, in->arp.src_hardware, 6);
    } else if (in->network == LK_IPV6 && in->transport == LK_ICMP && lk_find_ndisc(frame, len, &ndisc)) {
        claimed = asks || ndisc.is_advert ? &ndisc.target : NULL;
        memcpy(other, ndisc.has_hardware ? ndisc.hardware : in->ethernet.src, 6);
    }
    return claimed != NULL && memcmp(claimed, addr, sizeof *addr) == 0 && memcmp(other, own, 6) != 0;
}

#endif
