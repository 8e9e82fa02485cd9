/* The way of a packet through a router (RFC 1812, section 5.2.1). */
#define _GNU_SOURCE
#include "../fragments.h"
#include "router.h"

/* The longest IP header and 8 bytes, with the Ethernet header before them. Nothing after them is parsed, so no
 * payload is summed. */
enum { LONGEST_HEADERS = LK_ETHERNET_HEADER_LEN + 60 + 8 };

static const uint8_t no_hardware[6];

void drop(struct router *router, int why)
{
    router->drops[why]++;
}

int is_over_ipv4(const struct packet *packet)
{
    return packet->frame[LK_ETHERNET_HEADER_LEN] >> 4 == 4;
}

int is_link_local(const struct lk_addr *addr)
{
    const uint8_t *octets = addr->octets;
    return addr->version == 4 ? octets[0] == 169 && octets[1] == 254 : octets[0] == 0xfe && (octets[1] & 0xc0) == 0x80;
}

int is_reserved(const struct lk_addr *addr)
{
    static const uint8_t zeros[15];
    const uint8_t *octets = addr->octets;
    return addr->version == 4 ? octets[0] == 0 || octets[0] == 127 || octets[0] >= 240
                              : memcmp(octets, zeros, 15) == 0 && octets[15] <= 1;
}

static int is_broadcast(const struct lk_addr *addr)
{
    static const uint8_t ones[4] = {255, 255, 255, 255};
    return addr->version == 4 && memcmp(addr->octets, ones, 4) == 0;
}

/* The route to an address, or null. */
static const struct lk_route *route_to(const struct router *router, const struct lk_addr *addr)
{
    const struct config *config = &router->config;
    ptrdiff_t place =
        lk_choose_route_by_table(config->nodes, config->route_count, config->cells, config->cell_count, addr);
    return place < 0 ? NULL : &config->routes[place];
}

/* Returns why no packet with this source may come from an interface, or LK_NOT_REJECTED. With -n it may come from any
 * one, but its source is no address of the router and no broadcast of a link (RFC 1812, section 5.3.7). */
static int check_source(const struct router *router, uint16_t from, const struct lk_addr *src)
{
    const struct config *config = &router->config;
    int rejection = lk_check_source_by_table(config->routes, config->route_count, config->nodes, config->route_count,
                                             config->cells, config->cell_count, src, from);
    if (rejection == LK_NOT_REJECTED || rejection == LK_MARTIAN || !router->takes_any_way)
        return rejection;
    const struct lk_route *route = route_to(router, src);
    return route != NULL && route->interface >= MOST_INTERFACES ? rejection : LK_NOT_REJECTED;
}

/* Whether a packet may be forwarded by its addresses. If not, it is counted. */
static int may_pass(struct router *router, uint16_t from, const struct lk_frame *in)
{
    const struct interface *interface = &router->interfaces[from];
    if ((in->ethernet.dst[0] & 1) || lk_is_multicast(&in->dst.addr) || is_broadcast(&in->dst.addr)) {
        drop(router, GROUP);
    } else if (memcmp(in->ethernet.dst, interface->own.hardware, 6) != 0) {
        drop(router, OTHER_LINK);
    } else if (is_link_local(&in->dst.addr) || is_link_local(&in->src.addr)) {
        drop(router, LINK_LOCAL);
    } else if (is_reserved(&in->dst.addr)) {
        drop(router, RESERVED);
    } else {
        int rejection = check_source(router, from, &in->src.addr);
        if (rejection == LK_NOT_REJECTED)
            return 1;
        drop(router, rejection);
    }
    return 0;
}

/* The length of an IP packet whose header was parsed, in bytes. */
static size_t packet_len(const uint8_t *header)
{
    return header[0] >> 4 == 4 ? (size_t)header[2] << 8 | header[3] : 40 + ((size_t)header[4] << 8 | header[5]);
}

/* The length of the longest IP packet that this one becomes on its way: that of its segments, if the device makes
 * them. After the headers each has `gso_size` bytes. */
static size_t longest_len(const struct packet *packet)
{
    const struct virtio_net_hdr *offload = &packet->offload;
    size_t start = offload->csum_start;
    if (offload->gso_type == VIRTIO_NET_HDR_GSO_NONE || start < LK_ETHERNET_HEADER_LEN || start + 20 > packet->len)
        return packet->len - LK_ETHERNET_HEADER_LEN;
    int kind = offload->gso_type & ~VIRTIO_NET_HDR_GSO_ECN;
    int is_tcp = kind == VIRTIO_NET_HDR_GSO_TCPV4 || kind == VIRTIO_NET_HDR_GSO_TCPV6;
    size_t header_len = is_tcp ? packet->frame[start + 12] / 16 * 4u : 8;
    return start - LK_ETHERNET_HEADER_LEN + header_len + offload->gso_size;
}

/* Whether routers may fragment a packet: DF is not set (RFC 791). Over IPv6 none may. */
static int is_divisible(const struct packet *packet)
{
    return is_over_ipv4(packet) && (packet->frame[LK_ETHERNET_HEADER_LEN + 6] & 0x40) == 0;
}

/* Whether this router may. A frame that becomes many is not cut here. */
static int may_fragment(const struct packet *packet)
{
    return is_divisible(packet) && packet->offload.gso_type == VIRTIO_NET_HDR_GSO_NONE;
}

/* Sends a packet in fragments, after the packets that wait in the queues. */
static void send_cut(struct router *router, struct interface *interface, struct packet *packet)
{
    complete_checksum(packet);
    flush_all(router);
    send_fragments(interface, packet->frame, packet->len, interface->renumbers);
}

static int hop_limit(const struct packet *packet)
{
    return packet->frame[LK_ETHERNET_HEADER_LEN + (is_over_ipv4(packet) ? 8 : 7)];
}

/* Sends a packet by a route. A packet whose hop limit has expired waits for no neighbour. */
static void send_by(struct router *router, uint16_t from, const struct lk_route *route, struct packet *packet,
                    const struct lk_addr *dst)
{
    struct interface *interface = &router->interfaces[route->interface];
    const struct lk_addr *hop = route->next_hop.version != 0 ? &route->next_hop : dst;
    int is_too_long = longest_len(packet) > interface->mtu;
    if (is_too_long && !may_fragment(packet)) {
        drop(router, TOO_LONG);
        send_error(router, from, LK_PACKET_TOO_BIG, packet, interface->mtu);
        return;
    }
    const uint8_t *hardware = hardware_of(router, route->interface, hop);
    if (hardware == NULL && hop_limit(packet) > 1) {
        wait_for_neighbour(router, route->interface, hop, from, packet, dst);
        return;
    }
    int rejection = lk_forward(packet->frame, packet->len, interface->own.hardware, hardware ? hardware : no_hardware);
    if (rejection == LK_HOP_LIMIT_TOO_LOW)
        send_error(router, from, LK_HOP_LIMIT_EXPIRED, packet, 0);
    else if (rejection == LK_NOT_REJECTED && router->before_send != NULL && is_over_ipv4(packet))
        rejection = router->before_send(router, from, route->interface, packet);
    if (rejection != LK_NOT_REJECTED) {
        drop(router, rejection);
        return;
    }
    clamp(&router->interfaces[from], packet);
    clamp(interface, packet);
    if (!interface->is_tap)
        packet->len = pad(packet->frame, packet->len);
    router->forwarded++;
    if (!is_too_long && interface->renumbers && is_divisible(packet))
        renumber(packet); /* one that is cut gets its identification there */
    if (is_too_long)
        send_cut(router, interface, packet);
    else
        send_later(interface, packet);
}

void send_on(struct router *router, uint16_t from, struct packet *packet, const struct lk_addr *dst)
{
    const struct lk_route *route = route_to(router, dst);
    if (route == NULL) {
        drop(router, NO_WAY);
        send_error(router, from, LK_NO_ROUTE_TO_DESTINATION, packet, 0);
    } else if (route->interface == TO_BROADCAST) {
        drop(router, GROUP);
    } else if (route->interface != TO_ROUTER) {
        send_by(router, from, route, packet, dst);
    } else if (is_of_kernel(router, dst)) {
        router->for_kernel++;
    } else if (is_used(router, dst) && answer(router, from, dst, packet)) {
        router->answered++;
    } else {
        drop(router, FOR_ROUTER);
    }
}

static int is_ip_type(uint16_t type)
{
    return type == LK_ETHERTYPE_IPV4 || type == LK_ETHERTYPE_IPV6;
}

static int read_headers(const struct packet *packet, struct lk_frame *in)
{
    size_t captured = packet->len < LONGEST_HEADERS ? packet->len : LONGEST_HEADERS;
    return lk_read_captured(packet->frame, captured, packet->len, in);
}

/* The table in which a fragment is put together with others, or NO_TABLE: it is forwarded as it is, or the kernel's. */
static enum table table_of(const struct router *router, uint16_t from, const struct lk_frame *in)
{
    const struct lk_route *route = is_fragment(in) ? route_to(router, &in->dst.addr) : NULL;
    enum table table = NO_TABLE;
    if (route != NULL && router->table_of != NULL && in->network == LK_IPV4)
        table = router->table_of(from, route->interface, &in->dst.addr);
    int is_own = route != NULL && route->interface == TO_ROUTER && !is_of_kernel(router, &in->dst.addr);
    return table == NO_TABLE && is_own ? FOR_OWN : table;
}

/* Takes an IP packet that may pass. */
static void on_packet(struct router *router, uint16_t from, struct lk_frame *in, struct packet *packet)
{
    struct lk_addr dst = in->dst.addr;
    enum table table = table_of(router, from, in);
    int rejection = LK_NOT_REJECTED;
    packet->len = LK_ETHERNET_HEADER_LEN + packet_len(packet->frame + LK_ETHERNET_HEADER_LEN);
    if (table == FOR_OWN && in->is_fragment && is_used(router, &dst) && answer(router, from, &dst, packet)) {
        router->answered++; /* by an error about a fault: the fragment is discarded */
        return;
    }
    if (table != NO_TABLE && !make_whole(router, from, table, in, packet))
        return;
    if (table != NO_TABLE)
        read_headers(packet, in);
    if (router->before_route != NULL && is_over_ipv4(packet))
        rejection = router->before_route(router, from, in, packet, &dst);
    if (rejection != LK_NOT_REJECTED)
        drop(router, rejection);
    else
        send_on(router, from, packet, &dst);
}

void on_frame(struct router *router, uint16_t from, struct packet *packet)
{
    struct lk_frame in;
    int reason = read_headers(packet, &in);
    router->frames++;
    if (packet->is_tagged) {
        drop(router, TAGGED);
    } else if (in.network == LK_ARP) {
        if (reason == LK_READ)
            on_arp(router, from, &in, packet);
    } else if (in.network == LK_NO_NETWORK) {
        drop(router, is_ip_type(in.ethernet.type) ? LK_BAD_HEADER : LK_NOT_IP);
    } else if (in.ipv4_checksum == LK_CHECKSUM_INVALID) {
        drop(router, LK_WRONG_CHECKSUM);
    } else if (in.network == LK_IPV6 && in.transport == LK_ICMP && on_ndisc(router, from, &in, packet)) {
        router->ndisc++;
    } else if (in.transport == LK_ICMP && in.icmp.type == LK_ICMPV6_MLD_QUERY && on_query(router, from, packet)) {
        router->mld++;
    } else if (may_pass(router, from, &in)) {
        on_packet(router, from, &in, packet);
    }
}

static const char *name_of(int why)
{
    static const char *const names[DROPS - OTHER_LINK] = {
        "other link address", "VLAN tag", "group or broadcast", "link-local",   "reserved address", "for the router",
        "no route",           "too long", "no neighbour",      "address of another host", "above the limit of mappings",
        "bad fragment",
    };
    return why < OTHER_LINK ? lk_rejection_name(why) : names[why - OTHER_LINK];
}

void print_counts(struct router *router)
{
    struct output *out = &router->out;
    print(out, "frames %lu, forwarded %lu, answered %lu, ARP %lu, ND %lu\n", router->frames, router->forwarded,
          router->answered, router->arp, router->ndisc);
    if (router->mld != 0)
        print(out, "MLD %lu\n", router->mld);
    if (router->for_kernel != 0)
        print(out, "left to the kernel %lu\n", router->for_kernel);
    if (router->fragments != 0)
        print(out, "fragments %lu, put together %lu\n", router->fragments, router->wholes);
    if (router->withheld != 0)
        print(out, "ICMP errors above the limit %lu\n", router->withheld);
    if (router->untold != 0)
        print(out, "dropped without an ICMP error %lu\n", router->untold);
    for (int why = 0; why < DROPS; why++)
        if (router->drops[why] != 0)
            print(out, "dropped: %s %lu\n", name_of(why), router->drops[why]);
    for (struct interface *one = router->interfaces; one < router->interfaces + router->interface_count; one++) {
        count_missed(one);
        print(out, "%s: received %lu, sent %lu, lost %lu, missed %lu%s\n", one->name, one->received, one->sent,
              one->lost, one->missed, one->device < 0 ? ", gone" : "");
    }
}
