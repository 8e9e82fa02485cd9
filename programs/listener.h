/* Multicast listener discovery of a host (RFC 2710). A switch with MLD snooping sends neighbour solicitations for an
 * address only where its solicited-node group was reported. Otherwise IPv6 ends when the switch has heard a querier. */
#ifndef LISTENER_H
#define LISTENER_H

#include <ip_wire.h>
#include <string.h>
#include <sys/random.h>

enum { REPORT_LEN = 86 };

struct listener {
    int64_t report_at; /* when the groups of an interface are reported next, in milliseconds; 0: not before a query */
};

/* The solicited-node group of an address (RFC 4291, section 2.7.1). */
static inline struct lk_addr solicited_node(const struct lk_addr *addr)
{
    struct lk_addr group = {.version = 6, .octets = {0xff, 2, [11] = 1, [12] = 0xff}};
    memcpy(group.octets + 13, addr->octets + 13, 3);
    return group;
}

/* Writes the report for an IPv6 address, and returns its length. `src` is a link-local address of the interface, or `::` while
 * it has none (RFC 3590). */
static inline size_t write_report(const uint8_t *hardware, const struct lk_addr *addr, const struct lk_addr *src,
                                  uint8_t out[REPORT_LEN])
{
    struct lk_frame headers = {.src = {.addr = *src}, .dst = {.addr = solicited_node(addr)}};
    memcpy(headers.ethernet.src, hardware, 6);
    ptrdiff_t len = lk_emit_mld_report(&headers, out, REPORT_LEN);
    return len > 0 ? (size_t)len : 0;
}

/* Whether a frame is a query for the group of an address. Then its report is due after a random part of the time that the
 * query allows, less `early` milliseconds. */
static inline int hear_query(struct listener *listener, int64_t now, const struct lk_addr *addr, int early,
                             const uint8_t *frame, size_t len)
{
    struct lk_addr group = solicited_node(addr);
    struct lk_mld_query query;
    uint32_t random = 0;
    if (addr->version != 6 || !lk_is_unicast(addr) || !lk_find_mld_query(frame, len, &group, &query))
        return 0;
    if ((int)query.max_delay > early && getrandom(&random, sizeof random, 0) == sizeof random)
        random %= query.max_delay - (uint32_t)early;
    if (listener->report_at == 0 || now + random < listener->report_at)
        listener->report_at = now + random;
    return 1;
}

static inline int is_due(const struct listener *listener, int64_t now)
{
    return listener->report_at != 0 && listener->report_at <= now;
}

#endif
