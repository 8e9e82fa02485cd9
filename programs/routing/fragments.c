/* Packets that are put together from their fragments: those for the router itself, and those that a NAT translates. And
 * packets that leave in fragments. */
#define _GNU_SOURCE
#include "router.h"

#include "../fragments.h"

static const struct virtio_net_hdr no_offload;
static struct fragments tables[TABLES];

int make_tables(void)
{
    for (struct fragments *one = tables; one < tables + TABLES; one++)
        if (!make_fragments(one))
            return 0;
    return 1;
}

/* While fragments wait, two bytes of their Ethernet destination have the number of the interface by which they came: several
 * interfaces may have one Ethernet address. */
enum { INTERFACE_AT = 4 };

static void hide_interface(uint8_t *frame, uint16_t from)
{
    memcpy(frame + INTERFACE_AT, &from, sizeof from);
}

/* Returns the interface, and writes its Ethernet address again. */
static uint16_t find_interface(const struct router *router, uint8_t *frame)
{
    uint16_t from;
    memcpy(&from, frame + INTERFACE_AT, sizeof from);
    memcpy(frame, router->interfaces[from].own.hardware, 6);
    return from;
}

int make_whole(struct router *router, uint16_t from, enum table place, const struct lk_frame *in, struct packet *packet)
{
    struct fragments *table = &tables[place];
    complete_checksum(packet);
    hide_interface(packet->frame, from);
    ptrdiff_t len = reassemble(table, router->now, in, packet->frame, packet->len);
    router->fragments++;
    if (len < 0)
        drop(router, BAD_FRAGMENT);
    if (len <= 0)
        return 0;
    router->wholes++;
    memcpy(packet->frame, table->whole, (size_t)len);
    find_interface(router, packet->frame);
    packet->len = (size_t)len;
    packet->offload = no_offload;
    return 1;
}

/* Tells the sender of a fragment that the others did not come. The frame is as it came in. */
static void send_time_exceeded(struct router *router, uint8_t *frame, size_t len)
{
    static uint8_t out[LONGEST_FRAME];
    uint16_t from = find_interface(router, frame);
    ptrdiff_t error =
        lk_emit_icmp_error(&router->interfaces[from].own, LK_FRAGMENT_MISSING, 0, frame, len, out, sizeof out);
    if (error > 0)
        send_own(router, from, out, (size_t)error);
}

void expire_fragments(struct router *router)
{
    for (struct fragments *one = tables; one < tables + TABLES; one++)
        for (size_t len; (len = expire(one, router->now)) > 0;)
            send_time_exceeded(router, one->whole, len);
}

static void store_word(uint8_t *place, uint16_t word)
{
    place[0] = (uint8_t)(word >> 8);
    place[1] = (uint8_t)word;
}

void renumber(struct packet *packet)
{
    uint8_t *header = packet->frame + LK_ETHERNET_HEADER_LEN;
    store_word(header + 4, (uint16_t)next_ident(&tables[FOR_OWN], packet->frame));
    if (packet->offload.gso_type != VIRTIO_NET_HDR_GSO_NONE && packet->offload.gso_size > 0)
        tables[FOR_OWN].ident += (uint32_t)(packet->len / packet->offload.gso_size); /* the device counts on */
    store_word(header + 10, 0);
    store_word(header + 10, (uint16_t)~lk_checksum(header, header[0] % 16 * 4u));
}

size_t send_fragments(struct interface *interface, const uint8_t *frame, size_t len, int is_own)
{
    static uint8_t out[LONGEST_FRAME];
    const int64_t ident = is_own ? next_ident(&tables[FOR_OWN], frame) : LK_FORWARDED;
    size_t count = 0;
    for (ptrdiff_t n; (n = lk_fragment(frame, len, interface->mtu, ident, count, out, sizeof out)) > 0; count++)
        send_now(interface, &no_offload, out, interface->is_tap ? (size_t)n : pad(out, (size_t)n));
    return count;
}
