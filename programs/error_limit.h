/* A limit for ICMP errors (RFC 1812, section 4.3.2.8; RFC 4443, section 2.4 f): token buckets. */
#ifndef ERROR_LIMIT_H
#define ERROR_LIMIT_H
#include <ip_wire.h>
#include <string.h>
#include <sys/random.h>

/* Up to MOST_ERRORS at once, and one more after each interval, in milliseconds. */
enum { MOST_ERRORS = 50, ERROR_INTERVAL = 10 };
/* "Too big" has a bucket of its own, of which one receiver gets a part: else a host whose packets expire or are too big stops
 * path MTU discovery for all others. */
enum { MOST_OF_RECEIVER = 10, RECEIVER_INTERVAL = 100, RECEIVERS = 256 };
enum error_kind { NO_ERROR, OTHER_ERROR, TOO_BIG, ERROR_KINDS };

/* A bucket is full at its time, in milliseconds. */
struct error_limit {
    int64_t full_at[ERROR_KINDS];
    int64_t receivers[RECEIVERS]; /* of those whose addresses have this hash, for "too big" */
    uint64_t key[2];              /* random, so that nobody can choose an address with the hash of another */
};

/* Whether a packet is the ICMP error "packet too big" (RFC 4443, section 3.2), over IPv4 "fragmentation needed" (RFC
 * 1191). */
static inline int is_too_big(const struct lk_frame *in)
{
    if (in->network == LK_IPV6)
        return in->transport == LK_ICMP && in->icmp.type == LK_ICMPV6_PACKET_TOO_BIG;
    return in->transport == LK_ICMP && in->icmp.type == LK_ICMP_UNREACHABLE
           && in->icmp.code == LK_ICMP_CODE_FRAGMENTATION_NEEDED;
}

/* Which ICMP error a frame that this program wrote is, and to whom. */
static inline enum error_kind error_kind_of(const uint8_t *frame, size_t len, struct lk_addr *receiver)
{
    /* nothing after them is parsed, so no payload is summed */
    enum { LONGEST_HEADERS = LK_ETHERNET_HEADER_LEN + LK_IPV6_HEADER_LEN + LK_ICMP_HEADER_LEN };
    struct lk_frame f;
    lk_read_captured(frame, len < LONGEST_HEADERS ? len : LONGEST_HEADERS, len, &f);
    *receiver = f.dst.addr;
    const struct lk_icmp *icmp = &f.icmp;
    int is_ipv4 = f.network == LK_IPV4;
    if (f.transport != LK_ICMP || (is_ipv4 ? icmp->type == LK_ICMP_ECHO_REPLY || icmp->type == LK_ICMP_ECHO_REQUEST
                                           : icmp->type >= LK_ICMPV6_ECHO_REQUEST))
        return NO_ERROR;
    return is_too_big(&f) ? TOO_BIG : OTHER_ERROR;
}

/* The bucket of a receiver. */
static inline int64_t *bucket_of(struct error_limit *limit, const struct lk_addr *receiver)
{
    uint64_t high, low;
    memcpy(&high, receiver->octets, 8);
    memcpy(&low, receiver->octets + 8, 8);
    while (limit->key[0] == 0 && getrandom(limit->key, sizeof limit->key, 0) != sizeof limit->key)
        ;
    uint64_t hash = (high ^ limit->key[0]) * 0x9e3779b97f4a7c15;
    hash = ((hash ^ hash >> 32) + (low ^ limit->key[1])) * 0xd6e8feb86659fd93;
    return &limit->receivers[(hash ^ hash >> 32) % RECEIVERS];
}

/* Whether there is a token in a bucket of this size. */
static inline int has_token(int64_t *full_at, int64_t now, int most, int interval)
{
    if (*full_at < now)
        *full_at = now;
    return *full_at - now <= (int64_t)(most - 1) * interval;
}

/* Whether a frame may be sent at a time, in milliseconds: an ICMP error only within the limit. */
static inline int may_send(struct error_limit *limit, int64_t now, const uint8_t *frame, size_t len)
{
    struct lk_addr receiver;
    enum error_kind kind = error_kind_of(frame, len, &receiver);
    int64_t *of_receiver = kind == TOO_BIG ? bucket_of(limit, &receiver) : NULL;
    if (kind == NO_ERROR)
        return 1;
    if (!has_token(&limit->full_at[kind], now, MOST_ERRORS, ERROR_INTERVAL)
        || (of_receiver != NULL && !has_token(of_receiver, now, MOST_OF_RECEIVER, RECEIVER_INTERVAL)))
        return 0;
    limit->full_at[kind] += ERROR_INTERVAL;
    if (of_receiver != NULL)
        *of_receiver += RECEIVER_INTERVAL;
    return 1;
}

#endif
