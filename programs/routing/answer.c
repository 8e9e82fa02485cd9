/* What a router sends of its own: answers to packets for its addresses, and ICMP errors about packets that it drops. */
#define _GNU_SOURCE
#include "router.h"

static const struct virtio_net_hdr no_offload;

void send_own(struct router *router, uint16_t to, uint8_t *frame, size_t len)
{
    struct interface *interface = &router->interfaces[to];
    if (!may_send(&interface->limit, router->now, frame, len))
        router->withheld++;
    else if (len <= LK_ETHERNET_HEADER_LEN + interface->mtu)
        send_now(interface, &no_offload, frame, interface->is_tap ? len : pad(frame, len));
    else if (send_fragments(interface, frame, len, 1) == 0)
        drop(router, TOO_LONG);
}

int answer(struct router *router, uint16_t from, const struct lk_addr *own, struct packet *packet)
{
    static uint8_t out[LONGEST_FRAME];
    const struct lk_interface *interface = &router->interfaces[from].own;
    struct lk_host host = {.ipv4 = interface->ipv4, .ipv6 = interface->ipv6, .is_router = 1};
    memcpy(host.hardware, interface->hardware, 6);
    *(own->version == 4 ? &host.ipv4 : &host.ipv6) = *own;
    complete_checksum(packet);
    ptrdiff_t len = lk_answer(&host, packet->frame, packet->len, out, sizeof out);
    if (len > 0)
        send_own(router, from, out, (size_t)len);
    return len > 0;
}

void send_error(struct router *router, uint16_t from, enum lk_problem problem, struct packet *packet, size_t mtu)
{
    static struct packet error;
    complete_checksum(packet);
    ptrdiff_t len = lk_emit_icmp_error(&router->interfaces[from].own, (int)problem, (uint32_t)mtu, packet->frame,
                                       packet->len, error.frame, sizeof error.frame);
    error.len = len > 0 ? (size_t)len : 0;
    error.offload = no_offload;
    int is_translated = len > 0 && router->before_error != NULL && is_over_ipv4(&error);
    if (len > 0 && (!is_translated || router->before_error(router, from, &error) == LK_NOT_REJECTED))
        send_own(router, from, error.frame, error.len);
    else
        router->untold++;
}
