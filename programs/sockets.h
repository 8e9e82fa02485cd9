/* The TCP connections of host.c and http.c: a table of lk_connection with their buffers and the headers of what they send.
 * The program has its addresses, the device, and a function that reads and writes.
 *
 * UDP needs no table: lk_answer echoes, and lk_make_reply and lk_emit_udp_frame answer a packet (quick.c). */
#ifndef SOCKETS_H
#define SOCKETS_H

#include "error_limit.h"
#include "process.h"
#include "tap.h"
#include <sys/random.h>

#ifndef SOCKETS
#define SOCKETS 64 /* connections at a time */
#endif
#ifndef BUFFER
#define BUFFER (1 << 18) /* the bytes of each of the two rings of a connection */
#endif
enum { USER_TIMEOUT = 300000, LONGEST_WAIT = 60000 }; /* in milliseconds; RFC 9293, section 3.9.1.1 */
enum { LEAST_MTU_IPV4 = 576, LEAST_MTU_IPV6 = 1280, LONGEST_IP_HEADER = 60, TCP_HEADER = 20 };

struct socket {
    struct lk_connection tcp;
    struct lk_frame headers; /* of what is sent */
    uint32_t next;           /* the number after all that was sent */
    uint64_t opened;         /* when its SYN came, in milliseconds */
    uint64_t heard;          /* when the peer's last segment came, in milliseconds */
    unsigned long order;     /* how many segments had come then */
    size_t taken, sent;      /* for the program; 0 when the connection opens */
    uint8_t outgoing[BUFFER], incoming[BUFFER];
};

struct sockets {
    const struct lk_host *own;
    int device;
    size_t mtu;                     /* of the device, in bytes */
    uint16_t port;                  /* to which peers connect */
    void (*serve)(struct socket *); /* reads and writes; called after each segment */
    unsigned long segments;         /* that came */
    unsigned long frames_out;
    uint16_t ident; /* of the last packet that may be fragmented */
    struct socket list[SOCKETS];
};

/* Returns how many bytes of the peer were read, at most `cap`. */
static inline size_t read_bytes(struct socket *s, void *out, size_t cap)
{
    ptrdiff_t n = lk_connection_read(&s->tcp, s->incoming, BUFFER, out, cap);
    return n > 0 ? (size_t)n : 0;
}

/* Returns how many bytes for the peer were written: as many as there is room for. */
static inline size_t write_bytes(struct socket *s, const void *ptr, size_t len)
{
    ptrdiff_t n = lk_connection_write(&s->tcp, s->outgoing, BUFFER, ptr, len);
    return n > 0 ? (size_t)n : 0;
}

static inline size_t room_of(const struct socket *s)
{
    size_t waiting = lk_connection_unacked(&s->tcp);
    return waiting < BUFFER ? BUFFER - waiting : 0;
}

/* Sends a segment. It is lost while the device is down. Packets that may be fragmented have different identifications, also
 * those of two connections to one host (RFC 6864, section 4.3). */
static inline void send_segment(struct sockets *all, struct socket *s, const struct lk_segment *out)
{
    static uint8_t frame[LONGEST_WHOLE];
    size_t len = out->payload_len + !!(out->tcp.flags & LK_SYN) + !!(out->tcp.flags & LK_FIN);
    uint32_t end = lk_add_seq(out->tcp.seq_number, (uint32_t)len);
    if (lk_compare_seq(end, s->next) > 0)
        s->next = end;
    if (s->headers.network == LK_IPV4 && !s->headers.ip.dont_fragment)
        s->headers.ip.ident = ++all->ident;
    s->headers.tcp = out->tcp;
    ptrdiff_t n =
        lk_emit_tcp_frame(&s->headers, &out->options, out->payload, out->payload_len, frame, sizeof frame);
    if (n > 0)
        all->frames_out += write(all->device, frame, (size_t)n) == n;
}

/* Sends all that is due. */
static inline void send_due(struct sockets *all, struct socket *s, uint64_t now)
{
    struct lk_segment out;
    while (lk_connection_tick(&s->tcp, s->outgoing, BUFFER, s->incoming, BUFFER, now, &out) == 1)
        send_segment(all, s, &out);
}

/* Sends what is due of all connections. Returns how long poll may wait, in milliseconds. */
static inline int run_sockets(struct sockets *all)
{
    uint64_t now = (uint64_t)milliseconds(), first = now + LONGEST_WAIT;
    for (struct socket *s = all->list; s < all->list + SOCKETS; s++) {
        if (lk_connection_next_timeout(&s->tcp) <= now)
            send_due(all, s, now);
        first = lk_connection_next_timeout(&s->tcp) < first ? lk_connection_next_timeout(&s->tcp) : first;
    }
    return (int)(first - now);
}

/* Makes all connections, which are closed. */
static inline void make_sockets(struct sockets *all)
{
    for (struct socket *s = all->list; s < all->list + SOCKETS; s++)
        lk_connection_init(&s->tcp, 0, 0, 0);
}

static inline int is_free(const struct socket *s)
{
    int state = lk_connection_state(&s->tcp);
    return state == LK_CLOSED || state == LK_LISTEN;
}

/* Returns the connection between these endpoints, or null. */
static inline struct socket *find(struct sockets *all, const struct lk_endpoint *own, const struct lk_endpoint *peer)
{
    for (struct socket *s = all->list; s < all->list + SOCKETS; s++)
        if (memcmp(&s->headers.src, own, sizeof *own) == 0 && memcmp(&s->headers.dst, peer, sizeof *peer) == 0 && !is_free(s))
            return s;
    return NULL;
}

/* The place with the lowest rank is given to a new connection. */
static inline int rank(const struct socket *s)
{
    int state = lk_connection_state(&s->tcp);
    return is_free(s) ? 0 : state == LK_TIME_WAIT ? 1 : state == LK_SYN_RECEIVED ? 2 : 3;
}

/* Returns a free place, else that of a connection which has ended or is half open, the oldest one. Else it resets the
 * connection whose peer is silent for the longest time, if that is as long as the user time-out. Else it returns null. */
static inline struct socket *find_place(struct sockets *all, uint64_t now)
{
    struct socket *place = all->list;
    struct lk_segment out;
    for (struct socket *s = all->list; s < all->list + SOCKETS; s++)
        if (rank(s) < rank(place) || (rank(s) == rank(place) && s->order < place->order))
            place = s;
    if (rank(place) == 3 && now - place->heard < USER_TIMEOUT)
        return NULL;
    if (rank(place) == 3 && lk_connection_abort(&place->tcp, &out) == 1)
        send_segment(all, place, &out);
    return place;
}

/* The largest segment in a packet of at most this MTU (RFC 6691). */
static inline uint16_t mss_of(const struct lk_frame *headers, size_t mtu)
{
    return (uint16_t)(mtu - (headers->network == LK_IPV6 ? 40 : 20) - TCP_HEADER);
}

/* Returns a place that waits for the SYN of a frame, or null. */
static inline struct socket *open_socket(struct sockets *all, const struct lk_frame *in, uint32_t iss, uint64_t now)
{
    struct socket *s = find_place(all, now);
    if (s == NULL)
        return NULL;
    s->headers = *in;
    lk_make_reply(&s->headers);
    s->headers.ip.dscp = 0;
    s->next = iss;
    s->taken = s->sent = 0;
    s->opened = now;
    lk_connection_init(&s->tcp, mss_of(in, all->mtu), 0, 1);
    lk_connection_listen(&s->tcp);
    return s;
}

/* Whether a segment may move the peer to another Ethernet address: nobody guesses the number that it acknowledges. */
static inline int is_from_peer(const struct socket *s, const struct lk_tcp *in)
{
    if (!(in->flags & LK_ACK))
        return lk_connection_state(&s->tcp) == LK_SYN_RECEIVED;
    return lk_compare_seq(in->ack_number, s->next) <= 0 && lk_subtract_seq(s->next, in->ack_number) <= BUFFER;
}

/* Handles a TCP segment to this host, whose checksums are right. Returns 0 if it is of no connection, and opens none: then
 * lk_answer resets it. */
static inline int on_tcp(struct sockets *all, const struct lk_frame *in, const struct lk_tcp_options *options,
                         const uint8_t *frame)
{
    uint64_t now = (uint64_t)milliseconds();
    int opens = (in->tcp.flags & (LK_SYN | LK_ACK | LK_RST)) == LK_SYN && in->dst.port == all->port;
    uint32_t fresh = 0;
    struct lk_segment segment = {in->tcp, *options, frame + in->payload_offset, in->payload_len}, out;
    struct socket *s = find(all, &in->dst, &in->src);
    if (s == NULL && opens && getrandom(&fresh, sizeof fresh, 0) == sizeof fresh)
        s = open_socket(all, in, fresh, now);
    if (s == NULL)
        return 0;
    if (is_from_peer(s, &in->tcp))
        memcpy(s->headers.ethernet.dst, in->ethernet.src, 6);
    s->heard = now;
    s->order = all->segments++;
    if (lk_connection_step(&s->tcp, s->outgoing, BUFFER, s->incoming, BUFFER, now, &segment, fresh, &out) == 1)
        send_segment(all, s, &out);
    all->serve(s);
    send_due(all, s, now);
    return 1;
}

/* Whether a packet is for this host, from addresses that another host can have (RFC 1122, section 3.2.1.3). Without
 * routes lk_check_source finds those that none can have. */
static inline int is_for_us(const struct lk_host *host, const struct lk_frame *in)
{
    const struct lk_addr *own = in->network == LK_IPV4 ? &host->ipv4 : &host->ipv6, *src = &in->src.addr;
    int is_to_us = memcmp(in->ethernet.dst, host->hardware, 6) == 0 && memcmp(&in->dst.addr, own, sizeof *own) == 0;
    return is_to_us && lk_is_unicast(own) && (in->ethernet.src[0] & 1) == 0 && memcmp(src, own, sizeof *own) != 0
           && lk_check_source(NULL, 0, NULL, 0, src, 0) != LK_MARTIAN;
}

/* A packet that was sent is longer than this MTU of its path. lk_connection_too_big returns 0 if no such packet is on its
 * way: then the error may be forged. If the MTU is below LEAST_MTU_IPV4, as the 0 of a router that tells none,
 * packets of that length may be fragmented (RFC 1191, section 5). Links of IPv6 have at least LEAST_MTU_IPV6 (RFC 8201,
 * section 4). */
static inline void lower_mtu(struct sockets *all, const struct lk_frame *sent, size_t mtu)
{
    struct socket *s = find(all, &sent->src, &sent->dst);
    size_t least = sent->network == LK_IPV4 ? LEAST_MTU_IPV4 : LEAST_MTU_IPV6;
    if (s == NULL || mtu >= all->mtu || (sent->network == LK_IPV6 && mtu < least))
        return;
    if (lk_connection_too_big(&s->tcp, sent->tcp.seq_number, mss_of(sent, mtu < least ? least : mtu)) && mtu < least)
        s->headers.ip.dont_fragment = 0;
    send_due(all, s, (uint64_t)milliseconds());
}

/* Handles such an error. It quotes the IP header of a packet, and at least 8 bytes after it (RFC 792). In a TCP header
 * these are the ports and the sequence number. */
static inline void on_too_big(struct sockets *all, const struct lk_frame *in, const uint8_t *frame)
{
    uint8_t quote[LONGEST_IP_HEADER + TCP_HEADER] = {0};
    size_t len = in->payload_len < sizeof quote ? in->payload_len : sizeof quote;
    struct lk_frame sent;
    memcpy(quote, frame + in->payload_offset, len);
    lk_read_captured_packet(quote, sizeof quote, LK_MAX_LEN, &sent);
    int is_tcp = (sent.transport == LK_TCP || sent.rejected == LK_TCP) && sent.transport_offset + 8 <= len;
    if (is_tcp && sent.network == in->network)
        lower_mtu(all, &sent, in->network == LK_IPV4 ? in->icmp.word & 0xffff : in->icmp.word);
}

/* Whether a frame of a TAP device may be used. A checksum that is left to the device is wrong there, as for lk_answer. */
static inline int is_usable(const struct lk_frame *in)
{
    return lk_is_valid(in) && in->transport_checksum != LK_CHECKSUM_PARTIAL;
}

#endif
