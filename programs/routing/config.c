/* The file of a router: a line each for an address, a route, a neighbour, the Ethernet address of a TAP device, or an
 * interface whose MTU limits TCP segments. */
#define _GNU_SOURCE
#include "router.h"

#include <errno.h>
#include <stdlib.h>

enum { MOST_WORDS = 8, FIRST_ROOM = 1 << 16, MOST_BYTES = 1 << 26 };

/* A route of the file. */
struct file_route {
    struct lk_route route;
    unsigned long line;
};

/* A configuration while its file is read. */
struct reading {
    struct router *router;
    struct config config;
    struct file_route *routes;
    size_t route_count;
    unsigned long line;
};

static const char no_memory[] = "out of memory";

/* Reports what is wrong in a line. */
static int fails(const struct reading *reading, unsigned long line, const char *fault)
{
    struct router *router = reading->router;
    print(&router->errors, "%s: %s:%lu: %s\n", router->name, router->path, line, fault);
    return 0;
}

/* ---- lines ---- */

/* A list that grows. `list` is a pointer to the first of `count` values. Returns null if there is no memory. */
static void *grown(void *list, size_t count, size_t size)
{
    int is_full = (count & (count - 1)) == 0; /* at each power of two, and before the first */
    return is_full ? realloc(list, (count ? 2 * count : 1) * size) : list;
}

/* Returns the number of an interface, or -1. */
static int interface_of(const struct router *router, const char *name)
{
    for (size_t i = 0; i < router->interface_count; i++)
        if (strcmp(router->interfaces[i].name, name) == 0)
            return (int)i;
    return -1;
}

static int parse_addr(const char *word, struct lk_addr *addr)
{
    return lk_parse_addr(word, strlen(word), addr);
}

/* The Ethernet address of a host: no group, and not zero. */
static int parse_hardware(const char *word, uint8_t *hardware)
{
    static const uint8_t zeros[6];
    return lk_parse_mac(word, strlen(word), hardware) && (hardware[0] & 1) == 0 && memcmp(hardware, zeros, 6) != 0;
}

/* Returns why no host can have an address, or null. */
static const char *host_fault(const struct lk_addr *addr)
{
    if (lk_is_multicast(addr))
        return "a group address";
    return is_reserved(addr) ? "a reserved address" : NULL;
}

/* Whether all addresses of a block are groups. */
static int is_group_block(const struct lk_prefix *block)
{
    return lk_is_multicast(&block->addr) && block->prefix_len >= (block->addr.version == 4 ? 4 : 8);
}

/* The block of one address: an address of the block with the host bits all 0 or all 1. */
static struct lk_prefix one_host(const struct lk_prefix *block, int bits)
{
    unsigned prefix_len = block->prefix_len;
    struct lk_prefix host = *block;
    for (unsigned bit = prefix_len; bit < 32; bit++) {
        uint8_t *octet = &host.addr.octets[bit / 8], mask = (uint8_t)(0x80 >> bit % 8);
        *octet = (uint8_t)(bits ? *octet | mask : *octet & ~mask);
    }
    host.prefix_len = 32;
    return host;
}

/* Whether an IPv4 link has broadcast addresses (RFC 1812, section 4.2.3.1; RFC 3021). */
static int has_broadcasts(const struct lk_prefix *block)
{
    return block->addr.version == 4 && block->prefix_len <= 30;
}

static int is_same_addr(const struct lk_addr *a, const struct lk_addr *b)
{
    return memcmp(a, b, sizeof *a) == 0;
}

/* Returns what is wrong with an address of the router, or null. A link-local address may be on each link. */
static const char *address_fault(const struct config *config, const struct lk_prefix *block, uint16_t interface)
{
    struct lk_prefix first = one_host(block, 0), last = one_host(block, 1);
    const char *fault = host_fault(&block->addr);
    if (fault != NULL)
        return fault;
    if (block->prefix_len == 0)
        return "the block of a link cannot have all addresses";
    if (has_broadcasts(block) && (is_same_addr(&block->addr, &first.addr) || is_same_addr(&block->addr, &last.addr)))
        return "a broadcast address: the first or last of its block";
    for (size_t i = 0; i < config->address_count && !is_link_local(&block->addr); i++) {
        const struct address *other = &config->addresses[i];
        if (is_same_addr(&other->block.addr, &block->addr))
            return "the router has this address already";
        if (other->interface != interface && other->block.prefix_len == block->prefix_len
            && lk_contains(&other->block, &block->addr))
            return "another interface has this block";
    }
    return NULL;
}

static const char *read_address(struct reading *reading, char **words, uint16_t interface)
{
    struct config *config = &reading->config;
    struct lk_prefix block;
    if (!lk_parse_prefix(words[1], strlen(words[1]), &block))
        return "not an address with a prefix length";
    const char *fault = address_fault(config, &block, interface);
    if (fault != NULL)
        return fault;
    void *list = grown(config->addresses, config->address_count, sizeof *config->addresses);
    if (list == NULL)
        return no_memory;
    config->addresses = list;
    config->addresses[config->address_count++] = (struct address){.block = block, .interface = interface};
    return NULL;
}

static const char *read_route(struct reading *reading, char **words, int count, uint16_t interface)
{
    struct lk_route route = {.interface = interface};
    struct lk_addr *hop = &route.next_hop;
    if (!lk_parse_prefix(words[1], strlen(words[1]), &route.prefix))
        return "not a block";
    if (is_group_block(&route.prefix))
        return "a block of groups";
    if (count == 4 && (!parse_addr(words[3], hop) || hop->version != route.prefix.addr.version))
        return "not the address of a next hop";
    if (count == 4 && host_fault(hop) != NULL)
        return host_fault(hop);
    void *list = grown(reading->routes, reading->route_count, sizeof *reading->routes);
    if (list == NULL)
        return no_memory;
    reading->routes = list;
    reading->routes[reading->route_count++] = (struct file_route){.route = route, .line = reading->line};
    return NULL;
}

static const char *read_neighbour(struct reading *reading, char **words, uint16_t interface)
{
    struct config *config = &reading->config;
    struct fixed_neighbour neighbour = {.interface = interface, .line = reading->line};
    if (!parse_addr(words[1], &neighbour.addr) || !parse_hardware(words[3], neighbour.hardware))
        return "not an address and an Ethernet address of a host";
    if (host_fault(&neighbour.addr) != NULL)
        return host_fault(&neighbour.addr);
    void *list = grown(config->neighbours, config->neighbour_count, sizeof *config->neighbours);
    if (list == NULL)
        return no_memory;
    config->neighbours = list;
    config->neighbours[config->neighbour_count++] = neighbour;
    return NULL;
}

static const char *read_lladdr(struct reading *reading, char **words, uint16_t interface)
{
    struct setting *setting = &reading->config.settings[interface];
    if (!reading->router->interfaces[interface].is_tap)
        return "only a TAP device gets its Ethernet address here";
    if (!parse_hardware(words[1], setting->hardware))
        return "not an Ethernet address of a host";
    setting->has_hardware = 1;
    return NULL;
}

/* `words` is a line without its last two words. Returns what is wrong, or null. */
static const char *read_line(struct reading *reading, char **words, int count, uint16_t interface)
{
    if (strcmp(words[0], "address") == 0 && count == 2)
        return read_address(reading, words, interface);
    if (strcmp(words[0], "route") == 0 && (count == 2 || (count == 4 && strcmp(words[2], "via") == 0)))
        return read_route(reading, words, count, interface);
    if (strcmp(words[0], "neighbour") == 0 && count == 4 && strcmp(words[2], "lladdr") == 0)
        return read_neighbour(reading, words, interface);
    if (strcmp(words[0], "lladdr") == 0 && count == 2)
        return read_lladdr(reading, words, interface);
    if (strcmp(words[0], "clamp") != 0 || count != 1)
        return "not a line of this file";
    reading->config.settings[interface].clamps = 1;
    return NULL;
}

static const char *read_words(struct reading *reading, char *line)
{
    char *words[MOST_WORDS], *rest = NULL;
    int count = 0;
    line[strcspn(line, "#")] = 0;
    for (char *word = strtok_r(line, " \t\r", &rest); word; word = strtok_r(NULL, " \t\r", &rest)) {
        if (count == MOST_WORDS)
            return "too many words";
        words[count++] = word;
    }
    if (count == 0)
        return NULL;
    if (count < 3 || strcmp(words[count - 2], "dev") != 0)
        return "the line does not end in: dev NAME";
    int interface = interface_of(reading->router, words[count - 1]);
    return interface < 0 ? "no such interface" : read_line(reading, words, count - 2, (uint16_t)interface);
}

static int read_lines(struct reading *reading, char *text, size_t len)
{
    char *end = text + len;
    for (char *line = text, *stop; line < end; line = stop + 1) {
        stop = memchr(line, '\n', (size_t)(end - line));
        stop = stop != NULL ? stop : end;
        *stop = 0;
        reading->line++;
        const char *fault = strlen(line) < (size_t)(stop - line) ? "a zero byte" : read_words(reading, line);
        if (fault != NULL)
            return fails(reading, reading->line, fault);
    }
    return 1;
}

/* ---- what several lines say ---- */

/* Of equal blocks the first route counts. So the routes of the addresses come before those of the file: the router's
 * own addresses, the links, and their broadcasts. */
static int collect_routes(struct reading *reading)
{
    struct config *config = &reading->config;
    size_t most = 4 * config->address_count + reading->route_count, count = 0;
    struct lk_route *routes = config->routes = calloc(most + 1, sizeof *routes);
    config->nodes = calloc(most + 1, sizeof *config->nodes);
    config->cells = calloc(LK_ROUTE_TABLE_LEN(most), sizeof *config->cells);
    if (routes == NULL || config->nodes == NULL || config->cells == NULL)
        return 0;
    for (const struct address *own = config->addresses; own < config->addresses + config->address_count; own++) {
        struct lk_prefix self = own->block;
        self.prefix_len = self.addr.version == 4 ? 32 : 128;
        routes[count++] = (struct lk_route){.prefix = self, .interface = TO_ROUTER};
        routes[count++] = (struct lk_route){.prefix = own->block, .interface = own->interface};
    }
    for (const struct address *own = config->addresses; own < config->addresses + config->address_count; own++)
        for (int bits = 0; bits < 2 && has_broadcasts(&own->block); bits++)
            routes[count++] = (struct lk_route){.prefix = one_host(&own->block, bits), .interface = TO_BROADCAST};
    for (size_t i = 0; i < reading->route_count; i++)
        routes[count++] = reading->routes[i].route;
    config->route_count = count;
    config->cell_count = LK_ROUTE_TABLE_LEN(count);
    return lk_index_routes(routes, count, config->nodes, count) >= 0
        && lk_make_route_table(config->nodes, count, config->cells, config->cell_count) >= 0;
}

/* Returns why the router cannot reach an address as a neighbour on an interface, or null. */
static const char *link_fault(const struct config *config, uint16_t interface, const struct lk_addr *addr)
{
    ptrdiff_t place = lk_choose_route(config->nodes, config->route_count, addr);
    const struct lk_route *route = place < 0 ? NULL : &config->routes[place];
    if (route != NULL && route->interface == TO_ROUTER)
        return "an address of the router";
    if (route != NULL && route->interface == TO_BROADCAST)
        return "a broadcast address";
    if (route != NULL && route->interface == interface && route->next_hop.version == 0)
        return NULL;
    for (size_t i = 0; i < config->address_count; i++)
        if (config->addresses[i].interface == interface && lk_contains(&config->addresses[i].block, addr))
            return NULL;
    return addr->version == 6 && is_link_local(addr) ? NULL : "an address on no link of this interface";
}

/* Next hops and neighbours are on a link, and no neighbour has two lines. Sorts the neighbours. */
static int checks_links(const struct reading *reading)
{
    const struct config *config = &reading->config;
    for (const struct file_route *one = reading->routes; one < reading->routes + reading->route_count; one++) {
        const struct lk_addr *hop = &one->route.next_hop;
        const char *fault = hop->version != 0 ? link_fault(config, one->route.interface, hop) : NULL;
        if (fault != NULL)
            return fails(reading, one->line, fault);
    }
    if (config->neighbour_count > 0)
        qsort(config->neighbours, config->neighbour_count, sizeof *config->neighbours, compare_fixed);
    for (size_t i = 0; i < config->neighbour_count; i++) {
        const struct fixed_neighbour *one = &config->neighbours[i], *last = i > 0 ? one - 1 : NULL;
        const char *fault = link_fault(config, one->interface, &one->addr);
        if (fault != NULL)
            return fails(reading, one->line, fault);
        if (last != NULL && compare_fixed(one, last) == 0)
            return fails(reading, one->line > last->line ? one->line : last->line, "a neighbour of another line");
    }
    return 1;
}

static void free_config(struct config *config)
{
    free(config->addresses);
    free(config->routes);
    free(config->nodes);
    free(config->cells);
    free(config->neighbours);
    free(config->settings);
}

/* The first address of this version that is used on the interface, else the first one of the router; or 0.0.0.0 or `::`. */
static struct lk_addr first_address(const struct config *config, size_t interface, uint16_t version)
{
    struct lk_addr found = {.version = version};
    int is_found = 0;
    for (size_t i = config->address_count; i-- > 0;) {
        const struct address *one = &config->addresses[i];
        int is_here = one->interface == interface;
        if (one->block.addr.version == version && !one->is_taken && (is_here || !is_found)) {
            found = one->block.addr;
            is_found |= is_here;
        }
    }
    return found;
}

void choose_sources(struct router *router)
{
    for (size_t i = 0; i < router->interface_count; i++) {
        router->interfaces[i].own.ipv4 = first_address(&router->config, i, 4);
        router->interfaces[i].own.ipv6 = first_address(&router->config, i, 6);
    }
}

static void take_config(struct router *router, const struct config *config)
{
    free_config(&router->config);
    router->config = *config;
    for (size_t i = 0; i < router->interface_count; i++) {
        struct interface *interface = &router->interfaces[i];
        interface->introduced = 0;
        interface->clamps = config->settings[i].clamps;
        if (config->settings[i].has_hardware)
            memcpy(interface->own.hardware, config->settings[i].hardware, 6);
    }
    choose_sources(router);
}

/* ---- the file ---- */

/* Reads up to the end of a file. Returns what is wrong, or null. There is room for one more byte after the text. */
static const char *read_all(int file, char **text, size_t *len)
{
    ssize_t count;
    size_t room = 0;
    do {
        if (*len == room) {
            room = room > 0 ? 2 * room : FIRST_ROOM;
            char *more = room <= MOST_BYTES ? realloc(*text, room + 1) : NULL;
            if (more == NULL)
                return room <= MOST_BYTES ? no_memory : "the file is too long";
            *text = more;
        }
        count = read(file, *text + *len, room - *len);
        *len += count > 0 ? (size_t)count : 0;
    } while (count > 0 || (count < 0 && errno == EINTR));
    return count < 0 ? strerror(errno) : NULL;
}

/* Returns the text of the file, or null, with a message. What is no file cannot be read again, and could let the router
 * wait for its writer. */
static char *read_text(struct router *router, int is_again, size_t *len)
{
    struct stat status;
    char *text = NULL;
    int file = open(router->path, O_RDONLY | O_CLOEXEC | O_NOCTTY | (is_again ? O_NONBLOCK : 0));
    const char *fault = file < 0 || fstat(file, &status) < 0    ? strerror(errno)
                        : is_again && !S_ISREG(status.st_mode) ? "not a regular file, so it cannot be read again"
                                                                : read_all(file, &text, len);
    if (fault != NULL) {
        print(&router->errors, "%s: %s: %s\n", router->name, router->path, fault);
        free(text);
        text = NULL;
    }
    if (file >= 0)
        close(file);
    return text;
}

/* Whether the lines agree, and make a configuration. */
static int is_complete(struct reading *reading)
{
    struct router *router = reading->router;
    const char *fault = !collect_routes(reading) ? no_memory : NULL;
    if (fault == NULL && !checks_links(reading))
        return 0;
    if (fault == NULL && router->on_config != NULL)
        fault = router->on_config(router, &reading->config);
    if (fault != NULL)
        print(&router->errors, "%s: %s: %s\n", router->name, router->path, fault);
    return fault == NULL;
}

int read_config(struct router *router, int is_again)
{
    size_t len = 0;
    struct reading reading = {.router = router};
    char *text = read_text(router, is_again, &len);
    if (text == NULL)
        return 0;
    reading.config.settings = calloc(router->interface_count, sizeof *reading.config.settings);
    if (reading.config.settings == NULL)
        print(&router->errors, "%s: %s: %s\n", router->name, router->path, no_memory);
    int is_read = reading.config.settings != NULL && read_lines(&reading, text, len) && is_complete(&reading);
    free(text);
    free(reading.routes);
    if (is_read)
        take_config(router, &reading.config);
    else
        free_config(&reading.config);
    return is_read;
}
