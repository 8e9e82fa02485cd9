/* The addresses of host.c and proved_host.c. Each is asked for before it is used, then announced, and defended (RFC 5227; RFC
 * 4862, section 5.4). One that another host has is not used. With an IPv6 address comes a link-local one (RFC 4291, section
 * 2.8).
 *
 * Not supported: the random delays of RFC 5227, and to ask again after the device was down. */
#ifndef ADDRESSES_H
#define ADDRESSES_H

#include "claims.h"
#include "process.h"
#include "tap.h"

/* A host asks twice: a device that has just come up may lose the first reply. */
enum { MOST_ADDRESSES = 3, PROBES = 2, ANNOUNCEMENTS = 2, INTRODUCED = PROBES + ANNOUNCEMENTS };
enum { BETWEEN_ANNOUNCEMENTS = 2000 }; /* in milliseconds */

struct address {
    struct lk_addr addr;
    int is_taken;        /* another host has it */
    int64_t defended_at; /* when a conflict was reported last, in milliseconds; 0: never */
};

struct addresses {
    const char *program, *name; /* of the device */
    struct output errors;
    int device;
    uint8_t hardware[6];
    struct address list[MOST_ADDRESSES];
    size_t count;
    int steps;    /* done: first PROBES, then ANNOUNCEMENTS; with the first of these the addresses are used */
    int64_t next; /* when the next step is due */
    struct listener listener;
    struct lk_addr link_local; /* `::` while it is not used */
};

static inline int is_link_local(const struct lk_addr *addr)
{
    return addr->version == 6 && addr->octets[0] == 0xfe && (addr->octets[1] & 0xc0) == 0x80;
}

/* The link-local address that belongs to an Ethernet address (RFC 4291, section 2.5.6; RFC 2464, section 5). */
static inline struct lk_addr link_local_of(const uint8_t *hardware)
{
    const uint8_t *h = hardware;
    return (struct lk_addr){.version = 6,
                            .octets = {0xfe, 0x80, [8] = h[0] ^ 2, h[1], h[2], 0xff, 0xfe, h[3], h[4], h[5]}};
}

/* `host` has its addresses from now on as they are used: before, it has 0.0.0.0 and `::`. */
static inline void make_addresses(struct addresses *all, const char *program, const char *name, int device,
                                  struct lk_host *host)
{
    *all = (struct addresses){.program = program, .name = name, .device = device, .errors = open_output(STDERR_FILENO),
                              .next = milliseconds(), .link_local = {.version = 6}};
    memcpy(all->hardware, host->hardware, 6);
    if (lk_is_unicast(&host->ipv4))
        all->list[all->count++].addr = host->ipv4;
    if (lk_is_unicast(&host->ipv6))
        all->list[all->count++].addr = link_local_of(host->hardware);
    if (lk_is_unicast(&host->ipv6) && memcmp(&host->ipv6, &all->list[all->count - 1].addr, sizeof host->ipv6) != 0)
        all->list[all->count++].addr = host->ipv6;
    host->ipv4 = (struct lk_addr){.version = 4};
    host->ipv6 = (struct lk_addr){.version = 6};
}

static inline unsigned long send_claim(const struct addresses *all, const uint8_t *out, size_t len)
{
    return len > 0 && write(all->device, out, len) == (ssize_t)len;
}

/* Reports the groups of the IPv6 addresses. Returns the number of frames that the device took. */
static inline unsigned long report_groups(struct addresses *all)
{
    uint8_t out[REPORT_LEN];
    unsigned long count = 0;
    for (const struct address *one = all->list; one < all->list + all->count; one++)
        if (one->addr.version == 6 && !one->is_taken)
            count += send_claim(all, out, write_report(all->hardware, &one->addr, &all->link_local, out));
    return count;
}

/* Gives the host the addresses that no other host has. */
static inline void use_addresses(struct addresses *all, struct lk_host *host)
{
    for (const struct address *one = all->list; one < all->list + all->count; one++) {
        if (one->is_taken)
            continue;
        if (one->addr.version == 4)
            host->ipv4 = one->addr;
        else
            *(one == all->list + all->count - 1 ? &host->ipv6 : &all->link_local) = one->addr;
    }
    if (!lk_is_unicast(&all->link_local) && is_link_local(&host->ipv6))
        all->link_local = host->ipv6;
}

/* Asks for each address, or announces it. Groups are reported before: a switch may look for them. */
static inline unsigned long send_claims(struct addresses *all)
{
    uint8_t out[LONGEST_REQUEST];
    unsigned long count = all->steps == 0 || all->steps == PROBES ? report_groups(all) : 0;
    for (const struct address *one = all->list; one < all->list + all->count; one++) {
        if (one->is_taken)
            continue;
        size_t len = all->steps < PROBES ? write_probe(all->hardware, &one->addr, out)
                                         : write_announcement(all->hardware, &one->addr, 0, out);
        count += send_claim(all, out, len);
    }
    return count;
}

/* Does what is due. While the device is down, it begins again each second. Returns the number of frames that the device
 * took. */
static inline unsigned long run_addresses(struct addresses *all, int64_t now, struct lk_host *host)
{
    unsigned long count = 0;
    if (all->steps < INTRODUCED && now >= all->next) {
        if (all->steps == PROBES)
            use_addresses(all, host);
        count = send_claims(all);
        all->next = now + (all->steps < PROBES ? PROBE_TIME : BETWEEN_ANNOUNCEMENTS);
        all->steps += all->steps > 0 || count > 0 || all->count == 0;
    }
    if (is_due(&all->listener, now)) {
        all->listener.report_at = 0;
        count += report_groups(all);
    }
    return count;
}

/* The time until the next call of `run_addresses`, in milliseconds, or -1 if it has nothing to do before a frame comes. */
static inline int until_addresses(const struct addresses *all, int64_t now)
{
    int64_t next = all->steps < INTRODUCED ? all->next : INT64_MAX, report_at = all->listener.report_at;
    if (report_at != 0 && report_at < next)
        next = report_at;
    return next == INT64_MAX ? -1 : next <= now ? 0 : (int)(next - now);
}

/* Whether the program can say that it is ready: its addresses are used, or wait until the device is up. */
static inline int is_introduced(const struct addresses *all, int64_t now)
{
    return all->steps > PROBES || (all->steps == 0 && all->next > now);
}

/* Whether a host that has an address would have said so only now. */
static inline int is_probing(const struct addresses *all)
{
    return all->steps > 0 && all->steps <= PROBES;
}

/* Another host has the address: it is not used, or announced again. Returns the number of frames that the device took. */
static inline unsigned long on_conflict(struct addresses *all, int64_t now, struct address *one, const uint8_t *other)
{
    char hardware[LK_MAC_TEXT], addr[LK_ADDR_TEXT];
    uint8_t out[LONGEST_REQUEST];
    if (one->defended_at != 0 && now - one->defended_at < BETWEEN_CONFLICTS)
        return 0;
    one->is_taken = is_probing(all);
    one->defended_at = now;
    lk_print_mac(other, hardware, sizeof hardware);
    lk_print_addr(&one->addr, addr, sizeof addr);
    print(&all->errors, "%s: %s: %s uses the address %s%s\n", all->program, all->name, hardware, addr,
          one->is_taken ? ": it is not used here" : "");
    return one->is_taken ? 0 : send_claim(all, out, write_announcement(all->hardware, &one->addr, 0, out));
}

/* Takes what a frame says about the addresses: that another host has one, or a query for their groups. Returns the number
 * of frames that the device took. */
static inline unsigned long hear_addresses(struct addresses *all, int64_t now, const struct lk_frame *in, const uint8_t *frame,
                                           size_t len)
{
    int is_query = in->network == LK_IPV6 && in->transport == LK_ICMP && in->icmp.type == LK_ICMPV6_MLD_QUERY;
    uint8_t other[6];
    unsigned long count = 0;
    for (struct address *one = all->list; one < all->list + all->count; one++) {
        if (one->is_taken || all->steps == 0)
            continue;
        if (is_query)
            hear_query(&all->listener, now, &one->addr, 0, frame, len);
        if (is_claimed(&one->addr, all->hardware, is_probing(all), in, frame, len, other))
            count += on_conflict(all, now, one, other);
    }
    return count;
}

/* Writes the answer of the host to a frame, also for its link-local address. Returns what lk_answer returns. */
static inline ptrdiff_t answer_frame(const struct addresses *all, const struct lk_host *host, const uint8_t *frame, size_t len,
                                     uint8_t *out, size_t cap)
{
    struct lk_host other = *host;
    ptrdiff_t answer_len = lk_answer(host, frame, len, out, cap);
    if (answer_len != 0 || !lk_is_unicast(&all->link_local))
        return answer_len;
    other.ipv4 = (struct lk_addr){.version = 4};
    other.ipv6 = all->link_local;
    return lk_answer(&other, frame, len, out, cap);
}

/* The host with the address to which a packet is sent, if that is the link-local one: in `room`. */
static inline const struct lk_host *host_for(const struct addresses *all, const struct lk_host *host, const struct lk_frame *in,
                                             struct lk_host *room)
{
    if (!lk_is_unicast(&all->link_local) || memcmp(&in->dst.addr, &all->link_local, sizeof in->dst.addr) != 0)
        return host;
    *room = *host;
    room->ipv6 = all->link_local;
    return room;
}

#endif
