/* The router's own addresses on their links: reports of their groups, whether another host has them, and whether the
 * kernel has them. */
#define _GNU_SOURCE
#include "router.h"

#include <ifaddrs.h>
#include <netinet/in.h>
#include <stddef.h>

enum { PROBE, ANNOUNCE, INTRODUCED };
enum { BETWEEN_CALLS = PROBE_TIME };

/* Whether the kernel has this address of the router, and answers for it. */
static int kernel_has(const struct router *router, const struct address *own)
{
    const struct interface *interface = &router->interfaces[own->interface];
    return own->block.addr.version == 4 ? interface->kernel_ipv4 : interface->kernel_ipv6;
}

static void announce(struct router *router, const struct address *own)
{
    uint8_t out[LONGEST_REQUEST];
    size_t len = write_announcement(router->interfaces[own->interface].own.hardware, &own->block.addr, 1, out);
    if (len > 0)
        send_own(router, own->interface, out, len);
}

static void probe(struct router *router, const struct address *own)
{
    const struct lk_addr none = {.version = own->block.addr.version};
    send_request(router, own->interface, &none, &own->block.addr, NULL);
}

/* Reports the groups of an interface, if that is due. */
static void report_groups(struct router *router, uint16_t at)
{
    struct interface *interface = &router->interfaces[at];
    const struct lk_addr none = {.version = 6};
    uint8_t out[REPORT_LEN];
    if (!is_due(&interface->listener, router->now))
        return;
    interface->listener.report_at = 0;
    for (size_t i = 0; i < router->config.address_count; i++) {
        const struct address *own = &router->config.addresses[i];
        const struct lk_addr *addr = &own->block.addr;
        if (own->interface == at && addr->version == 6 && !own->is_taken)
            send_own(router, at, out, write_report(interface->own.hardware, addr, is_link_local(addr) ? addr : &none, out));
    }
}

/* The time of a report may be over by BETWEEN_CALLS when `introduce` is called next. */
int on_query(struct router *router, uint16_t from, const struct packet *packet)
{
    struct interface *interface = &router->interfaces[from];
    int is_heard = 0;
    for (size_t i = 0; !is_heard && !interface->kernel_ipv6 && i < router->config.address_count; i++) {
        const struct address *own = &router->config.addresses[i];
        is_heard = own->interface == from && hear_query(&interface->listener, router->now, &own->block.addr, BETWEEN_CALLS,
                                                        packet->frame, packet->len);
    }
    report_groups(router, from);
    return is_heard;
}

void introduce(struct router *router)
{
    for (uint16_t i = 0; i < router->interface_count; i++) {
        struct interface *interface = &router->interfaces[i];
        if (interface->is_up && interface->introduced < INTRODUCED && !interface->kernel_ipv6)
            interface->listener.report_at = router->now;
        report_groups(router, i);
    }
    for (size_t i = 0; i < router->config.address_count; i++) {
        struct address *own = &router->config.addresses[i];
        const struct interface *interface = &router->interfaces[own->interface];
        if (!interface->is_up || interface->introduced >= INTRODUCED || kernel_has(router, own))
            continue;
        if (interface->introduced == PROBE)
            own->is_taken = 0;
        if (!own->is_taken)
            (interface->introduced == PROBE ? probe : announce)(router, own);
    }
    choose_sources(router);
    for (struct interface *one = router->interfaces; one < router->interfaces + router->interface_count; one++)
        one->introduced = !one->is_up ? PROBE : one->introduced < INTRODUCED ? one->introduced + 1 : INTRODUCED;
}

/* Another host has this address. */
static void on_conflict(struct router *router, struct address *own, const uint8_t *hardware)
{
    struct interface *interface = &router->interfaces[own->interface];
    char other[LK_MAC_TEXT], addr[LK_ADDR_TEXT];
    int is_probed = interface->introduced == ANNOUNCE && !kernel_has(router, own);
    int is_early = interface->defended_at != 0 && router->now - interface->defended_at < BETWEEN_CONFLICTS;
    if (is_early && !is_probed)
        return;
    own->is_taken = (uint8_t)is_probed;
    if (!is_probed)
        interface->defended_at = router->now;
    lk_print_mac(hardware, other, sizeof other);
    lk_print_addr(&own->block.addr, addr, sizeof addr);
    print(&router->errors, "%s: %s: %s uses the router's address %s%s\n", router->name, interface->name, other, addr,
          is_probed ? ", which is not used here" : "");
    if (is_probed)
        choose_sources(router);
    else if (!kernel_has(router, own))
        announce(router, own);
}

void find_conflict(struct router *router, uint16_t from, const struct lk_frame *in, const struct packet *packet)
{
    const struct interface *interface = &router->interfaces[from];
    uint8_t other[6];
    for (size_t i = 0; i < router->config.address_count; i++) {
        struct address *own = &router->config.addresses[i];
        int is_probed = interface->introduced == ANNOUNCE && !kernel_has(router, own);
        if (own->interface == from && !own->is_taken
            && is_claimed(&own->block.addr, interface->own.hardware, is_probed, in, packet->frame, packet->len, other))
            on_conflict(router, own, other);
    }
}

int is_used(const struct router *router, const struct lk_addr *addr)
{
    const struct config *config = &router->config;
    for (const struct address *own = config->addresses; own < config->addresses + config->address_count; own++)
        if (memcmp(&own->block.addr, addr, sizeof *addr) == 0 && !own->is_taken)
            return 1;
    return 0;
}

/* ---- addresses of the kernel ---- */

int is_of_kernel(const struct router *router, const struct lk_addr *own)
{
    for (size_t i = 0; i < router->config.address_count; i++) {
        const struct address *one = &router->config.addresses[i];
        if (memcmp(&one->block.addr, own, sizeof *own) == 0)
            return kernel_has(router, one);
    }
    return 0;
}

/* Whether an interface has an address, in a list of the kernel. */
static int is_in(const struct ifaddrs *list, const char *name, const struct lk_addr *addr)
{
    int family = addr->version == 4 ? AF_INET : AF_INET6;
    size_t start = offsetof(struct sockaddr_in, sin_addr);
    if (family == AF_INET6)
        start = offsetof(struct sockaddr_in6, sin6_addr);
    for (; list != NULL; list = list->ifa_next) {
        const uint8_t *place = (const uint8_t *)list->ifa_addr;
        if (place != NULL && list->ifa_addr->sa_family == family && strcmp(list->ifa_name, name) == 0
            && memcmp(place + start, addr->octets, addr->version == 4 ? 4 : 16) == 0)
            return 1;
    }
    return 0;
}

void compare_with_kernel(struct router *router)
{
    struct ifaddrs *list;
    if (!router->kernel_answers || getifaddrs(&list) < 0)
        return;
    for (size_t i = 0; i < router->config.address_count; i++) {
        const struct address *own = &router->config.addresses[i];
        const struct interface *interface = &router->interfaces[own->interface];
        char addr[LK_ADDR_TEXT];
        lk_print_addr(&own->block.addr, addr, sizeof addr);
        if (kernel_has(router, own) && !is_in(list, interface->name, &own->block.addr))
            print(&router->errors, "%s: %s: the kernel does not have %s\n", router->name, interface->name, addr);
    }
    freeifaddrs(list);
}
