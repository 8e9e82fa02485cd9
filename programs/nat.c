/* A NAT on TAP devices and on interfaces of the kernel (Linux). docs/ROUTER.md shows how to start it.
 *     nat [-k] [-m COUNT] [-f PROTOCOL:ADDRESS:PORT].. FILE OUTSIDE INSIDE..
 * The interfaces and FILE are those of router.c. IPv4 packets to OUTSIDE get its first IPv4 address, and ports of this
 * address lead back to the hosts inside. Of IPv4 only UDP, TCP, ping and ICMP errors pass OUTSIDE: other ICMP messages
 * are dropped. Fragments are put together, in any order, and the packet leaves in fragments again. Between inside
 * interfaces packets are routed as they are, and IPv6 between all. -k: the kernel has the inside and IPv6 addresses too,
 * and answers for them. It must not have the outside one: it would reset connections that it does not know. -m: the most
 * ports and echo identifiers that one inside address has at a time (RFC 6888, REQ-4). -f: this port outside leads to
 * the same port of a host inside, also before the host has sent anything. */
#define _GNU_SOURCE
#include "routing/router.h"

#include <stdlib.h>
#include <sys/random.h>

enum { OUTSIDE = 0, FIRST_PORT = 1024, PORTS = 65536 - FIRST_PORT, MAPPINGS = LK_MAPPINGS(PORTS), MOST_OF_ONE = PORTS / 4 };
enum { PROTOCOLS = 3 };
enum { MOST_FORWARDS = 64, MINUTE = 60000, BETWEEN_SEARCHES = 20 }; /* the times in milliseconds */

static const char help[] =
    "usage: nat [-k] [-m COUNT] [-f PROTOCOL:ADDRESS:PORT].. FILE OUTSIDE INSIDE..\n"
    "Forwards IPv4 and IPv6 packets. IPv4 packets to the interface OUTSIDE get its address.\n"
    "  -k        leaves packets to the inside and IPv6 addresses to the kernel, which has them\n"
    "  -m COUNT  the most ports that one inside address has at a time, 16128 by default\n"
    "  -f WORD   udp:ADDRESS:PORT or tcp:ADDRESS:PORT: the port outside that leads there\n"
    "  FILE      has addresses, routes and neighbours: docs/ROUTER.md\n"
    "  OUTSIDE, INSIDE  packet:NAME, an interface of the kernel, or tap:NAME, a TAP device\n"
    "  --help    prints this\n"
    "SIGUSR1 prints counters, SIGHUP reads FILE again, SIGINT and SIGTERM end it.\n";

static struct lk_nat nat = {
    .udp_timeout = 300000, .tcp_timeout = 7440000, .tcp_transitory_timeout = 240000, .icmp_timeout = 60000,
    .first_port = FIRST_PORT};
static struct lk_mapping *mappings;
static struct limit *limit;
static uint64_t full_until[PROTOCOLS]; /* no port of UDP, TCP or ICMP gets free before this time, in milliseconds */

static struct forward {
    int is_tcp;
    struct lk_endpoint inside;
} forwards[MOST_FORWARDS];
static size_t forward_count;
static int64_t next_minute; /* when `each_minute` is due, in milliseconds */

typedef int translate(const struct lk_nat *nat, struct lk_mapping *mappings, size_t count, uint64_t now, uint8_t *frame,
                      size_t len);

/* Whether the outside address is used: no other host had it when the router asked. */
static int has_outside(const struct router *router)
{
    const struct lk_addr *own = &router->interfaces[OUTSIDE].own.ipv4;
    return memcmp(own->octets, nat.outside, 4) == 0;
}

/* A packet whose checksum is left to the device gets it first, because the translation verifies it. */
static int translated(translate *call, const struct router *router, struct packet *packet)
{
    if (!has_outside(router))
        return TAKEN;
    complete_checksum(packet);
    int rejection = call(&nat, mappings, MAPPINGS, (uint64_t)router->now, packet->frame, packet->len);
    if (rejection == LK_NOT_REJECTED)
        uncomplete_checksum(packet);
    return rejection;
}

/* The place of the mapping that gave a packet its outside port. MAPPINGS: the packet is an ICMP error. */
static size_t place_of(const uint8_t *frame)
{
    const uint8_t *header = frame + LK_ETHERNET_HEADER_LEN, *transport = header + header[0] % 16 * 4;
    size_t part = header[9] == LK_PROTOCOL_UDP ? 0 : header[9] == LK_PROTOCOL_TCP ? 1 : 2;
    const uint8_t *place = part < 2 ? transport : transport + 4;
    size_t port = (size_t)place[0] << 8 | place[1];
    int is_error = part == 2 && transport[0] != LK_ICMP_ECHO_REQUEST;
    return is_error || port < FIRST_PORT ? MAPPINGS : part * PORTS + port - FIRST_PORT;
}

/* Reads the inside endpoint of a packet that leaves. Returns its protocol as for `full_until`, or PROTOCOLS: it has none. */
static size_t read_endpoint(const struct packet *packet, struct lk_mapping *endpoint)
{
    const uint8_t *header = packet->frame + LK_ETHERNET_HEADER_LEN, *transport = header + header[0] % 16 * 4;
    if (transport + 8 > packet->frame + packet->len)
        return PROTOCOLS;
    int is_echo = header[9] == LK_PROTOCOL_ICMP && transport[0] == LK_ICMP_ECHO_REQUEST;
    const uint8_t *port = is_echo ? transport + 4 : transport;
    memcpy(endpoint->inside, header + 12, 4);
    endpoint->inside_port = (uint16_t)(port[0] << 8 | port[1]);
    return header[9] == LK_PROTOCOL_UDP ? 0 : header[9] == LK_PROTOCOL_TCP ? 1 : is_echo ? 2 : PROTOCOLS;
}

/* The time before which no port of a protocol gets free: none has a mapping that ends earlier, or can get one that does. One
 * that gets free may wait for the next search. */
static uint64_t until_free(size_t protocol, uint64_t now)
{
    const uint64_t least[PROTOCOLS] = {nat.udp_timeout, nat.tcp_transitory_timeout, nat.icmp_timeout};
    uint64_t first = now + least[protocol];
    for (const struct lk_mapping *one = mappings + protocol * PORTS; one < mappings + (protocol + 1) * PORTS; one++)
        first = one->expires < first ? one->expires : first;
    return first > now + BETWEEN_SEARCHES ? first : now + BETWEEN_SEARCHES;
}

/* If no port is free, lk_translate_out reads all mappings. So after that new endpoints do not get there until a port may be
 * free. */
static int translated_out(const struct router *router, struct packet *packet)
{
    uint64_t now = (uint64_t)router->now;
    struct lk_mapping endpoint;
    size_t protocol = read_endpoint(packet, &endpoint);
    if (protocol < PROTOCOLS && now < full_until[protocol] && !has_mapping(limit, mappings, protocol, &endpoint, now))
        return LK_NO_FREE_PORT;
    int rejection = translated(lk_translate_out, router, packet);
    if (rejection == LK_NO_FREE_PORT && protocol < PROTOCOLS)
        full_until[protocol] = until_free(protocol, now);
    size_t place = rejection == LK_NOT_REJECTED ? place_of(packet->frame) : MAPPINGS;
    int is_within = place == MAPPINGS || is_within_limit(limit, mappings, place, now);
    return is_within ? rejection : ABOVE_LIMIT;
}

/* The mapping of a forwarded port stays, because it is used again in time. At first the port is free. */
static void use_forwards(struct router *router)
{
    static struct packet packet;
    for (const struct forward *one = forwards; one < forwards + forward_count; one++) {
        const struct lk_tcp_options none = {0};
        struct lk_frame headers = {.src = one->inside, .dst = one->inside, .ip.hop_limit = 1, .tcp.flags = LK_ACK};
        ptrdiff_t len = one->is_tcp ? lk_emit_tcp_frame(&headers, &none, NULL, 0, packet.frame, LONGEST_FRAME)
                                    : lk_emit_udp_frame(&headers, NULL, 0, packet.frame, LONGEST_FRAME);
        packet.len = (size_t)len;
        if (translated_out(router, &packet) != LK_NOT_REJECTED ||
            place_of(packet.frame) % PORTS != (size_t)one->inside.port - FIRST_PORT)
            print(&router->errors, "nat: port %d is not forwarded: it is in use\n", one->inside.port);
    }
}

/* After a flood the mappings end, but not their reaches. Then each new endpoint would be searched for in many rows. */
static void each_minute(struct router *router)
{
    if (router->now < next_minute || !has_outside(router))
        return;
    next_minute = router->now + MINUTE;
    lk_shrink_reach(&nat, mappings, MAPPINGS, (uint64_t)router->now);
    use_forwards(router);
}

static void store_dst(const struct packet *packet, struct lk_addr *dst)
{
    *dst = (struct lk_addr){.version = 4};
    memcpy(dst->octets, packet->frame + LK_ETHERNET_HEADER_LEN + 16, 4);
}

static int is_outside_address(const struct lk_addr *addr)
{
    return addr->version == 4 && memcmp(addr->octets, nat.outside, 4) == 0;
}

/* A packet for the outside address goes to the host inside, but the NAT itself answers ping. One that comes from inside
 * is first translated as if it left (hairpinning, RFC 4787, section 6). */
static int before_route(struct router *router, uint16_t from, const struct lk_frame *in, struct packet *packet,
                        struct lk_addr *dst)
{
    int is_to_outside = is_outside_address(dst), rejection = LK_NOT_REJECTED;
    each_minute(router);
    if (is_to_outside ? in->transport == LK_ICMP && in->icmp.type == LK_ICMP_ECHO_REQUEST : from != OUTSIDE)
        return LK_NOT_REJECTED;
    if (from != OUTSIDE)
        rejection = translated_out(router, packet);
    if (rejection == LK_NOT_REJECTED)
        rejection = translated(lk_translate_in, router, packet);
    if (rejection == LK_NOT_REJECTED)
        store_dst(packet, dst);
    return rejection;
}

/* A packet is translated as a whole, because only its first fragment has ports. */
static enum table table_of(uint16_t from, uint16_t to, const struct lk_addr *dst)
{
    if (from == OUTSIDE)
        return is_outside_address(dst) ? FROM_OUTSIDE : NO_TABLE;
    return to == OUTSIDE || is_outside_address(dst) ? FROM_INSIDE : NO_TABLE;
}

static int before_send(struct router *router, uint16_t from, uint16_t to, struct packet *packet)
{
    if (from == OUTSIDE)
        return to == OUTSIDE ? LK_NO_MAPPING : LK_NOT_REJECTED;
    return to == OUTSIDE ? translated_out(router, packet) : LK_NOT_REJECTED;
}

/* An error quotes a packet whose addresses were translated. Its sender gets the addresses that it used, whether it is
 * outside, or inside and wrote to the outside address. */
static int before_error(struct router *router, uint16_t to, struct packet *error)
{
    struct lk_addr dst;
    store_dst(error, &dst);
    int is_hairpin = is_outside_address(&dst);
    if (to != OUTSIDE && !is_hairpin)
        return LK_NOT_REJECTED;
    int rejection = translated(lk_translate_out, router, error);
    return rejection == LK_NOT_REJECTED && is_hairpin ? translated(lk_translate_in, router, error) : rejection;
}

/* With another outside address all mappings end. */
static const char *find_outside_address(const struct router *router, const struct config *config)
{
    static char fault[IFNAMSIZ + 32];
    for (size_t i = 0; i < config->address_count; i++) {
        const struct address *one = &config->addresses[i];
        if (one->interface != OUTSIDE || one->block.addr.version != 4)
            continue;
        if (memcmp(nat.outside, one->block.addr.octets, 4) != 0) {
            memset(mappings, 0, MAPPINGS * sizeof *mappings);
            memset(full_until, 0, sizeof full_until);
            next_minute = 0;
        }
        memcpy(nat.outside, one->block.addr.octets, 4);
        return NULL;
    }
    snprintf(fault, sizeof fault, "%s has no IPv4 address", router->interfaces[OUTSIDE].name);
    return fault;
}

/* Reads a number from 1 to MAPPINGS. Returns 0 if it is none, with a message. */
static size_t read_count(const char *word)
{
    char *end;
    unsigned long count = strtoul(word, &end, 10);
    if (*word >= '0' && *word <= '9' && *end == 0 && count > 0 && count <= MAPPINGS)
        return count;
    fprintf(stderr, "nat: %s: not a count from 1 to %zu\n", word, (size_t)MAPPINGS);
    return 0;
}

/* Reads what -f says. Returns 0 if it is wrong, with a message. */
static int read_forward(const char *word)
{
    struct forward one = {.is_tcp = strncmp(word, "tcp:", 4) == 0};
    if (forward_count < MOST_FORWARDS && (one.is_tcp || strncmp(word, "udp:", 4) == 0) &&
        lk_parse_endpoint(word + 4, strlen(word + 4), &one.inside) && one.inside.addr.version == 4 &&
        one.inside.port >= FIRST_PORT) {
        forwards[forward_count++] = one;
        return 1;
    }
    fprintf(stderr, "nat: %s: not udp:ADDRESS:PORT or tcp:ADDRESS:PORT, with a port from %d on\n", word, FIRST_PORT);
    return 0;
}

int main(int argc, char **argv)
{
    static struct router router = {.name = "nat", .before_route = before_route, .before_send = before_send,
                                   .before_error = before_error, .table_of = table_of,
                                   .on_config = find_outside_address};
    size_t most = MOST_OF_ONE;
    prepare();
    opterr = 0;
    int is_help = asks_for_help(argc, argv);
    for (int letter; !is_help && (letter = getopt(argc, argv, "+km:f:")) != -1;) {
        if (letter != 'k' && letter != 'm' && letter != 'f')
            return print_help(help, 0);
        if (letter == 'f' && !read_forward(optarg))
            return 2;
        router.kernel_answers |= letter == 'k';
        if (letter == 'm' && (most = read_count(optarg)) == 0)
            return 2;
    }
    if (is_help || argc - optind < 3)
        return print_help(help, is_help);
    mappings = calloc(MAPPINGS, sizeof *mappings);
    limit = make_limit(most, MAPPINGS);
    if (mappings == NULL || limit == NULL || getrandom(nat.key, sizeof nat.key, 0) != sizeof nat.key) {
        perror("nat");
        return 1;
    }
    if (!start(&router, argv[optind], argv + optind + 1, (size_t)(argc - optind - 1)))
        return 1;
    router.interfaces[OUTSIDE].renumbers = 1;
    router.interfaces[OUTSIDE].kernel_ipv4 = 0;
    return serve(&router);
}
