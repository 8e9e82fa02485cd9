/* The neighbour cache: ARP (RFC 826) with the rules of RFC 1122, section 2.3.2, and neighbour discovery (RFC 4861,
 * section 7.2). */
#define _GNU_SOURCE
#include "router.h"

#include <stdlib.h>
#include <sys/random.h>

/* Times are in milliseconds. */
enum { FRESH_TIME = 60000, BETWEEN_REQUESTS = 1000, MOST_REQUESTS = 3 };
enum { SETS = 4096, WAYS = 8, MOST_HELD = 64, MOST_HELD_BYTES = 1 << 22 };

/* A packet that waits for a reply, as it came in. */
struct held {
    struct held *next;
    struct lk_addr dst;
    uint16_t from;
    size_t len;
    struct virtio_net_hdr offload;
    uint8_t frame[];
};

/* Packets that wait, the oldest one first. */
struct list {
    struct held *first, *last;
    int count;
};

struct neighbour {
    struct lk_addr addr;
    uint16_t interface;
    uint8_t hardware[6];
    enum { FREE, ASKED, KNOWN } state;
    int requests;         /* since the last reply */
    int64_t asked_at;
    int64_t confirmed_at;
    struct list waiting;
};

struct neighbours {
    uint64_t key[2]; /* so that nobody can choose addresses of one set */
    size_t held_bytes;
    struct list released; /* the neighbours of these have replied */
    struct neighbour sets[SETS][WAYS];
};

struct neighbours *make_neighbours(void)
{
    struct neighbours *neighbours = calloc(1, sizeof *neighbours);
    if (neighbours != NULL && getrandom(neighbours->key, sizeof neighbours->key, 0) != sizeof neighbours->key) {
        free(neighbours);
        return NULL;
    }
    return neighbours;
}

static struct neighbour *set_of(struct neighbours *neighbours, uint16_t interface, const struct lk_addr *addr)
{
    uint64_t high, low;
    memcpy(&high, addr->octets, 8);
    memcpy(&low, addr->octets + 8, 8);
    uint64_t hash = (high ^ neighbours->key[0]) * 0x9e3779b97f4a7c15;
    hash = ((hash ^ hash >> 32) + (low ^ neighbours->key[1])) * 0xd6e8feb86659fd93;
    hash = ((hash ^ hash >> 32) + interface) * 0x9e3779b97f4a7c15;
    return neighbours->sets[hash >> 52];
}

static struct neighbour *find(struct neighbours *neighbours, uint16_t interface, const struct lk_addr *addr)
{
    struct neighbour *set = set_of(neighbours, interface, addr);
    for (int way = 0; way < WAYS; way++)
        if (set[way].state != FREE && set[way].interface == interface
            && memcmp(&set[way].addr, addr, sizeof *addr) == 0)
            return &set[way];
    return NULL;
}

static void append(struct list *list, struct held *held)
{
    held->next = NULL;
    if (list->first == NULL)
        list->first = held;
    else
        list->last->next = held;
    list->last = held;
    list->count++;
}

static struct held *take_first(struct list *list)
{
    struct held *held = list->first;
    list->first = held->next;
    list->count--;
    return held;
}

static void free_held(struct neighbours *neighbours, struct held *held)
{
    neighbours->held_bytes -= held->len;
    free(held);
}

/* Copies a packet out of its memory, and frees that. */
static void unpack(struct neighbours *neighbours, struct held *held, struct packet *packet)
{
    packet->len = held->len;
    packet->offload = held->offload;
    memcpy(packet->frame, held->frame, held->len);
    free_held(neighbours, held);
}

/* Drops the packets that wait. */
static void give_up(struct router *router, struct neighbour *neighbour)
{
    static struct packet packet;
    while (neighbour->waiting.first != NULL) {
        struct held *held = take_first(&neighbour->waiting);
        uint16_t from = held->from;
        unpack(router->neighbours, held, &packet);
        drop(router, NO_NEIGHBOUR);
        send_error(router, from, LK_NEIGHBOUR_MISSING, &packet, 0);
    }
}

/* The place of a set for a new neighbour: a free one, or that of the neighbour which was not heard of for longest,
 * first of those that never replied. */
static struct neighbour *place_in(struct neighbour *set)
{
    struct neighbour *place = set;
    for (struct neighbour *one = set; one < set + WAYS; one++)
        if (one->state < place->state || (one->state == place->state && one->confirmed_at < place->confirmed_at))
            place = one;
    return place;
}

static struct neighbour *add(struct router *router, uint16_t interface, const struct lk_addr *addr)
{
    struct neighbour *place = place_in(set_of(router->neighbours, interface, addr));
    give_up(router, place);
    *place = (struct neighbour){.addr = *addr, .interface = interface, .state = ASKED, .confirmed_at = router->now,
                                .asked_at = router->now - BETWEEN_REQUESTS};
    return place;
}

int compare_fixed(const void *a, const void *b)
{
    const struct fixed_neighbour *x = a, *y = b;
    int order = (x->interface > y->interface) - (x->interface < y->interface);
    return order != 0 ? order : memcmp(&x->addr, &y->addr, sizeof x->addr);
}

/* The Ethernet address that the file has for a neighbour, or null. */
static const uint8_t *fixed_hardware(const struct config *config, uint16_t interface, const struct lk_addr *addr)
{
    struct fixed_neighbour wanted = {.addr = *addr, .interface = interface}, *found = NULL;
    if (config->neighbour_count > 0)
        found = bsearch(&wanted, config->neighbours, config->neighbour_count, sizeof wanted, compare_fixed);
    return found != NULL ? found->hardware : NULL;
}

/* ---- sending ---- */

/* The router's address on the link of this one, else any one of this version on the interface. */
static const struct lk_addr *own_address(const struct router *router, uint16_t interface, const struct lk_addr *addr)
{
    const struct lk_addr *any = NULL;
    for (size_t i = 0; i < router->config.address_count; i++) {
        const struct address *own = &router->config.addresses[i];
        if (own->interface != interface || own->block.addr.version != addr->version || own->is_taken)
            continue;
        any = &own->block.addr;
        if (lk_contains(&own->block, addr))
            return any;
    }
    return any;
}

void send_request(struct router *router, uint16_t to, const struct lk_addr *src, const struct lk_addr *target,
                  const uint8_t *hardware)
{
    uint8_t out[LONGEST_REQUEST];
    size_t len = write_request(router->interfaces[to].own.hardware, src, target, hardware, out);
    if (len > 0)
        send_own(router, to, out, len);
}

/* Asks for an address: all hosts, or only the neighbour of which it is. At most once a second (RFC 1122, section
 * 2.3.2.1; RFC 4861, section 7.2.2). */
static void ask(struct router *router, struct neighbour *neighbour)
{
    const struct lk_addr *own = own_address(router, neighbour->interface, &neighbour->addr);
    if (router->now - neighbour->asked_at < BETWEEN_REQUESTS)
        return;
    neighbour->asked_at = router->now;
    neighbour->requests++;
    const uint8_t *hardware = neighbour->state == KNOWN ? neighbour->hardware : NULL;
    if (own != NULL)
        send_request(router, neighbour->interface, own, &neighbour->addr, hardware);
}

/* Keeps a copy of a packet, and drops the oldest one if there are too many. */
static void hold(struct router *router, struct neighbour *neighbour, const struct packet *packet,
                 const struct lk_addr *dst, uint16_t from)
{
    struct neighbours *neighbours = router->neighbours;
    if (neighbour->waiting.count == MOST_HELD) {
        free_held(neighbours, take_first(&neighbour->waiting));
        drop(router, NO_NEIGHBOUR);
    }
    struct held *held = NULL;
    if (neighbours->held_bytes + packet->len <= MOST_HELD_BYTES)
        held = malloc(sizeof *held + packet->len);
    if (held == NULL) {
        drop(router, NO_NEIGHBOUR);
        return;
    }
    *held = (struct held){.dst = *dst, .from = from, .len = packet->len, .offload = packet->offload};
    memcpy(held->frame, packet->frame, packet->len);
    append(&neighbour->waiting, held);
    neighbours->held_bytes += held->len;
}

const uint8_t *hardware_of(struct router *router, uint16_t interface, const struct lk_addr *addr)
{
    const uint8_t *fixed = fixed_hardware(&router->config, interface, addr);
    if (fixed != NULL)
        return fixed;
    struct neighbour *neighbour = find(router->neighbours, interface, addr);
    if (neighbour == NULL || neighbour->state == ASKED)
        return NULL;
    if (neighbour->state == KNOWN && router->now - neighbour->confirmed_at >= FRESH_TIME) {
        if (neighbour->requests >= MOST_REQUESTS && router->now - neighbour->asked_at >= BETWEEN_REQUESTS) {
            neighbour->state = ASKED;
            neighbour->requests = 0;
            return NULL;
        }
        if (neighbour->requests < MOST_REQUESTS)
            ask(router, neighbour);
    }
    return neighbour->hardware;
}

void wait_for_neighbour(struct router *router, uint16_t to, const struct lk_addr *addr, uint16_t from,
                        const struct packet *packet, const struct lk_addr *dst)
{
    struct neighbour *neighbour = find(router->neighbours, to, addr);
    if (neighbour == NULL)
        neighbour = add(router, to, addr);
    hold(router, neighbour, packet, dst, from);
    ask(router, neighbour);
}

void ask_again(struct router *router)
{
    struct neighbour *all = router->neighbours->sets[0];
    if (router->neighbours->held_bytes == 0)
        return;
    for (struct neighbour *one = all; one < all + SETS * WAYS; one++) {
        if (one->waiting.first == NULL)
            continue;
        if (one->requests >= MOST_REQUESTS && router->now - one->asked_at >= BETWEEN_REQUESTS) {
            give_up(router, one);
            one->requests = 0;
        } else {
            ask(router, one);
        }
    }
}

/* ---- receiving ---- */

/* An Ethernet address that is not confirmed is used, and asked for again (RFC 4861, section 7.3.2: STALE). */
static void learn(struct router *router, struct neighbour *neighbour, const uint8_t *hardware, int is_confirmed)
{
    int is_known = neighbour->state == KNOWN && memcmp(neighbour->hardware, hardware, 6) == 0;
    if (is_known && !is_confirmed)
        return;
    memcpy(neighbour->hardware, hardware, 6);
    neighbour->state = KNOWN;
    neighbour->confirmed_at = router->now - (is_confirmed ? 0 : FRESH_TIME);
    neighbour->requests = 0;
    while (neighbour->waiting.first != NULL)
        append(&router->neighbours->released, take_first(&neighbour->waiting));
}

void send_released(struct router *router, struct packet *packets)
{
    struct list *list = &router->neighbours->released;
    while (list->first != NULL) {
        for (size_t i = 0; i < FRAMES_AT_ONCE && list->first != NULL; i++) {
            struct held *held = take_first(list);
            struct lk_addr dst = held->dst;
            uint16_t from = held->from;
            unpack(router->neighbours, held, &packets[i]);
            send_on(router, from, &packets[i], &dst);
        }
        flush_all(router);
    }
}

/* The router's address that is this one, or the one whose block has it. */
static const struct address *address_with(const struct router *router, uint16_t interface, const struct lk_addr *addr,
                                          int is_own)
{
    for (size_t i = 0; i < router->config.address_count; i++) {
        const struct address *one = &router->config.addresses[i];
        if (one->interface == interface
            && (is_own ? memcmp(&one->block.addr, addr, sizeof *addr) == 0 : lk_contains(&one->block, addr)))
            return one;
    }
    return NULL;
}

/* Learns the Ethernet address of one that asks. A host that is not known counts only if it asks for the router. */
static void hear(struct router *router, uint16_t from, const struct lk_addr *addr, const uint8_t *hardware,
                 int is_for_us, int is_confirmed)
{
    struct neighbour *neighbour = find(router->neighbours, from, addr);
    int is_host = (hardware[0] & 1) == 0 && lk_is_unicast(addr) && address_with(router, from, addr, 1) == NULL
                  && (neighbour != NULL || address_with(router, from, addr, 0) != NULL);
    if (neighbour == NULL && is_for_us && is_host)
        neighbour = add(router, from, addr);
    if (neighbour != NULL && is_host)
        learn(router, neighbour, hardware, is_confirmed);
}

void on_arp(struct router *router, uint16_t from, const struct lk_frame *in, struct packet *packet)
{
    router->arp++;
    find_conflict(router, from, in, packet);
    const struct address *own = address_with(router, from, &in->dst.addr, 1);
    int is_for_us = own != NULL && !own->is_taken;
    hear(router, from, &in->src.addr, in->arp.src_hardware, is_for_us, 1);
    if (is_for_us && !router->interfaces[from].kernel_ipv4)
        answer(router, from, &in->dst.addr, packet);
}

/* RFC 4861, section 7.2.5. */
static void on_advert(struct router *router, uint16_t from, const struct lk_ndisc *advert)
{
    struct neighbour *neighbour = find(router->neighbours, from, &advert->target);
    if (neighbour == NULL || (advert->has_hardware && (advert->hardware[0] & 1)))
        return;
    const uint8_t *hardware = advert->has_hardware ? advert->hardware : neighbour->hardware;
    int is_other = memcmp(hardware, neighbour->hardware, 6) != 0;
    if (neighbour->state == KNOWN && is_other && !advert->overrides && router->now - neighbour->confirmed_at < FRESH_TIME) {
        neighbour->confirmed_at = router->now - FRESH_TIME; /* STALE: its Ethernet address is used, and asked for */
        neighbour->requests = 0;
    }
    if (neighbour->state == ASKED ? advert->has_hardware : advert->overrides || !is_other)
        learn(router, neighbour, hardware, advert->is_solicited);
}

int on_ndisc(struct router *router, uint16_t from, const struct lk_frame *in, struct packet *packet)
{
    struct lk_ndisc ndisc;
    int is_group = in->ethernet.dst[0] & 1;
    if ((!is_group && memcmp(in->ethernet.dst, router->interfaces[from].own.hardware, 6) != 0)
        || !lk_find_ndisc(packet->frame, packet->len, &ndisc))
        return 0;
    find_conflict(router, from, in, packet);
    const struct address *own = address_with(router, from, &ndisc.target, 1);
    if (ndisc.is_advert) {
        on_advert(router, from, &ndisc);
    } else if (own != NULL && !own->is_taken) {
        if (ndisc.has_hardware)
            hear(router, from, &in->src.addr, ndisc.hardware, 1, 0);
        if (!router->interfaces[from].kernel_ipv6)
            answer(router, from, &ndisc.target, packet);
    }
    return 1;
}
