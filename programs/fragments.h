/* What the programs need for packets in fragments. */
#ifndef FRAGMENTS_H
#define FRAGMENTS_H

#include <ip_wire.h>
#include <stdlib.h>
#include <string.h>
#include <sys/random.h>

/* How many packets are put together at a time, and the longest frame with a packet, which is of IPv6. */
enum { MOST_PARTIALS = 64, LONGEST_WHOLE = LK_ETHERNET_HEADER_LEN + LK_IPV6_HEADER_LEN + 65535 };
enum { PARTIALS_MEMORY = MOST_PARTIALS * LK_REASSEMBLY_MEMORY };
/* Of these one sender has at most so many. One more takes the place of its oldest one, so that a sender neither takes the place
 * of others (RFC 4787, REQ-14; RFC 6888, REQ-4), nor is silent for a minute after it has lost some fragments. */
enum { MOST_OF_SENDER = 8 };

struct fragments {
    struct lk_reassembly *partials;
    uint8_t *memory;
    uint32_t ident;               /* of the next packet that leaves in fragments */
    uint8_t whole[LONGEST_WHOLE]; /* the frame that was put together last */
};

/* Returns 0 if that fails. The kernel gives the memory only when it is written. */
static inline int make_fragments(struct fragments *fragments)
{
    if (getrandom(&fragments->ident, sizeof fragments->ident, 0) != sizeof fragments->ident)
        return 0;
    fragments->partials = calloc(MOST_PARTIALS, sizeof *fragments->partials);
    fragments->memory = calloc(MOST_PARTIALS, LK_REASSEMBLY_MEMORY);
    return fragments->partials != NULL && fragments->memory != NULL;
}

/* Whether a frame has a fragment, also an atomic one (RFC 6946). */
static inline int is_fragment(const struct lk_frame *in)
{
    return in->is_fragment || (in->network == LK_IPV6 && in->ip.protocol == LK_PROTOCOL_IPV6_FRAGMENT);
}

static inline int is_fragment_for(const struct lk_host *host, const struct lk_frame *in)
{
    const struct lk_addr *own = in->network == LK_IPV4 ? &host->ipv4 : &host->ipv6;
    return is_fragment(in) && in->ipv4_checksum != LK_CHECKSUM_INVALID && memcmp(in->ethernet.dst, host->hardware, 6) == 0
           && memcmp(&in->dst.addr, own, sizeof *own) == 0;
}

/* Neighbour discovery must not come in fragments (RFC 6980, section 5), not even in atomic ones. */
static inline int is_ndisc(const uint8_t *frame, size_t len)
{
    enum { LONGEST_HEADERS = LK_ETHERNET_HEADER_LEN + LK_IPV6_HEADER_LEN + LK_ICMP_HEADER_LEN };
    enum { FIRST = LK_ICMPV6_ROUTER_SOLICITATION, LAST = LK_ICMPV6_REDIRECT };
    struct lk_frame f;
    lk_read_captured(frame, len < LONGEST_HEADERS ? len : LONGEST_HEADERS, len, &f);
    return f.network == LK_IPV6 && f.transport == LK_ICMP && f.icmp.type >= FIRST && f.icmp.type <= LAST;
}

static inline int is_of_sender(const struct lk_reassembly *partial, const struct lk_frame *in)
{
    return partial->version == in->src.addr.version && memcmp(partial->src, in->src.addr.octets, 16) == 0;
}

static inline int is_of_packet(const struct lk_reassembly *partial, const struct lk_frame *in)
{
    return partial->ident == in->ip.ident && (partial->version == 6 || partial->protocol == in->ip.protocol)
           && memcmp(partial->dst, in->dst.addr.octets, 16) == 0;
}

/* Frees the oldest packet of a sender, if the fragment begins one more than it may have. */
static inline void make_room(struct fragments *fragments, int64_t now, const struct lk_frame *in)
{
    struct lk_reassembly *oldest = NULL;
    int count = 0;
    for (struct lk_reassembly *one = fragments->partials; one < fragments->partials + MOST_PARTIALS; one++) {
        if (one->expires <= (uint64_t)now || !is_of_sender(one, in))
            continue;
        if (is_of_packet(one, in))
            return;
        if (oldest == NULL || one->expires < oldest->expires)
            oldest = one;
        count++;
    }
    if (count >= MOST_OF_SENDER)
        *oldest = (struct lk_reassembly){.expires = 0};
}

/* Takes a fragment, which is read in `in`. A host calls lk_answer before, and discards a fragment that gets an answer. Returns
 * the length of the frame in `whole`, or what lk_reassemble returns instead. */
static inline ptrdiff_t reassemble(struct fragments *fragments, int64_t now, const struct lk_frame *in, const uint8_t *frame,
                                   size_t len)
{
    make_room(fragments, now, in);
    ptrdiff_t whole_len =
        lk_reassemble(fragments->partials, MOST_PARTIALS, fragments->memory, PARTIALS_MEMORY, (uint64_t)now, frame, len,
                      fragments->whole, sizeof fragments->whole);
    return whole_len > 0 && is_ndisc(fragments->whole, (size_t)whole_len) ? LK_DROPPED : whole_len;
}

/* Frees packets whose time is over, up to one that gets an ICMP error. Returns the length of its first fragment, in
 * `whole`, or 0. */
static inline size_t expire(struct fragments *fragments, int64_t now)
{
    return lk_expire_reassembly(fragments->partials, MOST_PARTIALS, fragments->memory, PARTIALS_MEMORY, (uint64_t)now,
                     fragments->whole, sizeof fragments->whole);
}

/* The time until the next call of `expire`, in milliseconds: a second, or -1 if no fragment waits for others. */
static inline int until_expire(const struct fragments *fragments)
{
    for (const struct lk_reassembly *one = fragments->partials; one < fragments->partials + MOST_PARTIALS; one++)
        if (one->expires != 0)
            return 1000;
    return -1;
}

/* The identification of the next packet that leaves in fragments. Over IPv4 it has 16 bits, over IPv6 32. */
static inline int64_t next_ident(struct fragments *fragments, const uint8_t *frame)
{
    const uint32_t ident = fragments->ident++;
    return frame[LK_ETHERNET_HEADER_LEN] >> 4 == 4 ? ident % 65536 : ident;
}

#endif
