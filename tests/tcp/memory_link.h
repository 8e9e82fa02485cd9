/* A link in memory, in virtual time, between hosts: those with the connections of programs/sockets.h, and those of
 * lwIP. Each has a number, which is its device. The program says what the link does. Clock, random numbers and writes
 * of libc are replaced. */
#ifndef MEMORY_LINK_H
#define MEMORY_LINK_H

#include "../../programs/sockets.h"
#include <lwip/etharp.h>
#include <lwip/ethip6.h>
#include <lwip/init.h>
#include <lwip/tcp.h>
#include <lwip/timeouts.h>
#include <netif/ethernet.h>
#include <stdlib.h>

enum { MTU = 1500, ETHERNET = 14, HOSTS = 2, DELAYS = 256 }; /* a delay is less than DELAYS milliseconds */

/* A host: `device` is of sockets.h, or `netif` of lwIP. */
struct host {
    struct lk_host own;
    struct sockets *sockets;
    struct netif netif;
};

struct frame {
    struct frame *next;
    int to;
    size_t mtu, len; /* `mtu`: of the device that it comes to */
    uint8_t bytes[];
};

static struct host hosts[HOSTS];
static uint64_t virtual_now = 1000, dice;
static struct frame *arrivals[DELAYS], **last_arrivals[DELAYS]; /* by the time modulo DELAYS */

/* What the link does with a frame of a host. */
static void on_link(int from, const uint8_t *bytes, size_t len);

/* A random number below `bound` (splitmix64). */
static uint32_t below(uint32_t bound)
{
    uint64_t z = dice += 0x9e3779b97f4a7c15;
    z = (z ^ (z >> 30)) * 0xbf58476d1ce4e5b9;
    z = (z ^ (z >> 27)) * 0x94d049bb133111eb;
    return (uint32_t)(((z ^ (z >> 31)) >> 32) * bound >> 32);
}

int clock_gettime(clockid_t clock, struct timespec *time)
{
    (void)clock;
    time->tv_sec = (time_t)(virtual_now / 1000);
    time->tv_nsec = (long)(virtual_now % 1000) * 1000000;
    return 0;
}

/* Sequence numbers: half of them wrap soon. */
ssize_t getrandom(void *out, size_t len, unsigned flags)
{
    uint32_t number = below(2) ? UINT32_MAX - below(20000) : below(UINT32_MAX);
    (void)flags;
    memcpy(out, &number, len < sizeof number ? len : sizeof number);
    return (ssize_t)len;
}

ssize_t write(int device, const void *bytes, size_t len)
{
    on_link(device, bytes, len);
    return (ssize_t)len;
}

static err_t send_frame(struct netif *netif, struct pbuf *frame)
{
    static uint8_t bytes[LONGEST_WHOLE];
    on_link((int)(intptr_t)netif->state, bytes, pbuf_copy_partial(frame, bytes, frame->tot_len, 0));
    return ERR_OK;
}

static void arrive_after(uint64_t delay, int to, size_t mtu, const uint8_t *bytes, size_t len)
{
    size_t at = (virtual_now + delay) % DELAYS;
    struct frame *frame = malloc(sizeof *frame + len);
    *frame = (struct frame){.to = to, .mtu = mtu, .len = len};
    memcpy(frame->bytes, bytes, len);
    *(arrivals[at] == NULL ? &arrivals[at] : last_arrivals[at]) = frame;
    last_arrivals[at] = &frame->next;
}

/* As in http.c. */
static void on_own_frame(struct host *host, const uint8_t *frame, size_t len)
{
    static uint8_t out[LONGEST_WHOLE];
    struct lk_frame in;
    struct lk_tcp_options options;
    lk_read_frame_options(frame, len, &in, &options);
    int is_valid = is_usable(&in) && is_for_us(&host->own, &in);
    if (is_valid && is_too_big(&in))
        on_too_big(host->sockets, &in, frame);
    if (is_valid && in.transport == LK_TCP && on_tcp(host->sockets, &in, &options, frame))
        return;
    ptrdiff_t answer_len = lk_answer(&host->own, frame, len, out, sizeof out);
    if (answer_len > 0)
        write(host->sockets->device, out, (size_t)answer_len);
}

static void on_lwip_frame(struct netif *netif, const uint8_t *frame, size_t len)
{
    struct pbuf *p = pbuf_alloc(PBUF_RAW, (u16_t)len, PBUF_RAM);
    if (p != NULL && (pbuf_take(p, frame, (u16_t)len) != ERR_OK || netif->input(p, netif) != ERR_OK))
        pbuf_free(p);
}

/* The frames that arrive now. */
static void deliver(void)
{
    struct frame *frame;
    while ((frame = arrivals[virtual_now % DELAYS]) != NULL) {
        struct host *host = &hosts[frame->to];
        arrivals[virtual_now % DELAYS] = frame->next;
        if (host->sockets == NULL) {
            on_lwip_frame(&host->netif, frame->bytes, frame->len);
        } else {
            host->sockets->mtu = frame->mtu;
            on_own_frame(host, frame->bytes, frame->len);
        }
        free(frame);
    }
}

/* Runs the timers that are due. Returns for how many milliseconds nothing is due, at most `most`. */
static uint64_t run_timers(uint64_t most)
{
    uint64_t wait;
    sys_check_timeouts();
    for (struct host *host = hosts; host < hosts + HOSTS; host++) {
        uint64_t due = host->sockets != NULL ? (uint64_t)run_sockets(host->sockets) : sys_timeouts_sleeptime();
        most = due < most ? due : most;
    }
    for (wait = 0; wait < most && arrivals[(virtual_now + wait) % DELAYS] == NULL;)
        wait++;
    return wait;
}

static err_t start_netif(struct netif *netif)
{
    netif->name[0] = 'm';
    netif->name[1] = 'l';
    netif->mtu = MTU;
    netif->hwaddr_len = ETH_HWADDR_LEN;
    netif->flags = NETIF_FLAG_BROADCAST | NETIF_FLAG_ETHARP | NETIF_FLAG_ETHERNET | NETIF_FLAG_LINK_UP;
    netif->output = etharp_output;
    netif->output_ip6 = ethip6_output;
    netif->linkoutput = send_frame;
    return ERR_OK;
}

/* Gives host `number` its addresses: 02:00:00:00:00:0n, 10.0.0.n and fd00::n. It is of sockets.h, or of lwIP. */
static void start_host(int number, struct sockets *sockets)
{
    const uint8_t n = (uint8_t)(number + 1);
    struct host *host = &hosts[number];
    ip4_addr_t addr, mask, none = {0};
    ip6_addr_t addr6;
    host->own = (struct lk_host){.hardware = {2, [5] = n},
                                 .ipv4 = {.version = 4, .octets = {10, [3] = n}},
                                 .ipv6 = {.version = 6, .octets = {0xfd, [15] = n}}};
    host->sockets = sockets;
    if (sockets != NULL) {
        *sockets = (struct sockets){.own = &host->own, .device = number, .mtu = MTU};
        make_sockets(sockets);
        return;
    }
    IP4_ADDR(&addr, 10, 0, 0, n);
    IP4_ADDR(&mask, 255, 255, 255, 0);
    IP6_ADDR(&addr6, PP_HTONL(0xfd000000), 0, 0, PP_HTONL(n));
    netif_add(&host->netif, &addr, &mask, &none, (void *)(intptr_t)number, start_netif, ethernet_input);
    memcpy(host->netif.hwaddr, host->own.hardware, ETH_HWADDR_LEN);
    netif_ip6_addr_set(&host->netif, 0, &addr6);
    netif_ip6_addr_set_state(&host->netif, 0, IP6_ADDR_PREFERRED);
    netif_set_up(&host->netif);
}

/* Opens a connection of sockets.h to a port of another host. */
static struct socket *connect_socket(int from, int to, int network, uint16_t own_port, uint16_t port)
{
    struct host *own = &hosts[from], *peer = &hosts[to];
    uint64_t now = (uint64_t)milliseconds();
    struct socket *s = find_place(own->sockets, now);
    struct lk_segment out;
    s->headers = (struct lk_frame){.network = (uint8_t)network, .ip = {.hop_limit = 64, .dont_fragment = 1}};
    s->headers.src = (struct lk_endpoint){network == LK_IPV4 ? own->own.ipv4 : own->own.ipv6, own_port};
    s->headers.dst = (struct lk_endpoint){network == LK_IPV4 ? peer->own.ipv4 : peer->own.ipv6, port};
    memcpy(s->headers.ethernet.src, own->own.hardware, 6);
    memcpy(s->headers.ethernet.dst, peer->own.hardware, 6);
    s->taken = s->sent = 0;
    getrandom(&s->next, sizeof s->next, 0);
    lk_connection_init(&s->tcp, mss_of(&s->headers, own->sockets->mtu), 0, 1);
    if (lk_connection_connect(&s->tcp, s->outgoing, BUFFER, s->incoming, BUFFER, now, s->next, &out) == 1)
        send_segment(own->sockets, s, &out);
    return s;
}

#endif
