/* A limit for the mappings of each inside address of a NAT (RFC 6888, REQ-4), and an index of the mappings by their inside
 * endpoints.
 *
 * The calls of the library neither count the mappings of an address nor say that one has begun or ended. So each inside
 * address has a counter, and a ring of the mappings that were counted for it, some of which may have ended. An address
 * at its limit looks for those by turns, at MOST_LOOKS mappings for each packet that needs another one.
 *
 * The work for a packet is bounded, however many addresses are at their limit: it reads at most WAYS counters and
 * MOST_LOOKS mappings, and those whose endpoints have the same hash. The index has an endpoint once: when it gets another
 * mapping, the one before has ended. */
#define _GNU_SOURCE
#include "router.h"

#include <stdlib.h>
#include <sys/random.h>

/* A set has less than half as many addresses as ways, on average, if each mapping is of another address. */
enum { SETS = 1 << 13, WAYS = 64, MOST_LOOKS = 64, CHAINS = 1 << 18 };

struct counter {
    uint32_t addr;
    uint32_t count;       /* 0: the counter is free */
    struct counted *next; /* of the ring, the one that is looked at next */
};

/* A mapping, by its place in the table. */
struct counted {
    struct counter *counter; /* null: it is not counted */
    struct counted *next, *previous;
    struct counted *chained, **place_in_chain; /* of the index: the next one, and what points to this one */
    uint16_t port;           /* of its inside endpoint */
};

struct limit {
    size_t most;
    uint64_t key; /* random, so that nobody can choose addresses of one set */
    size_t ports; /* of each protocol */
    struct counted *mappings;
    struct counted *chains[CHAINS];
    struct counter sets[SETS][WAYS];
};

struct limit *make_limit(size_t most, size_t count)
{
    struct limit *limit = calloc(1, sizeof *limit);
    struct counted *mappings = calloc(count, sizeof *mappings);
    if (limit == NULL || mappings == NULL || getrandom(&limit->key, sizeof limit->key, 0) != sizeof limit->key) {
        free(limit);
        free(mappings);
        return NULL;
    }
    limit->most = most;
    limit->ports = count / LK_MAPPINGS(1);
    limit->mappings = mappings;
    return limit;
}

static uint32_t inside_of(const struct lk_mapping *mapping)
{
    uint32_t addr;
    memcpy(&addr, mapping->inside, sizeof addr);
    return addr;
}

/* The counter of an address, or a free one for it. Null: its set is full. */
static struct counter *counter_of(struct limit *limit, uint32_t addr)
{
    uint64_t hash = (addr + limit->key) * 0x9e3779b97f4a7c15;
    hash = (hash ^ hash >> 32) * 0xd6e8feb86659fd93;
    struct counter *set = limit->sets[hash >> 51], *unused = NULL;
    for (struct counter *one = set; one < set + WAYS; one++) {
        if (one->count == 0)
            unused = one;
        else if (one->addr == addr)
            return one;
    }
    return unused;
}

/* 0 for UDP, 1 for TCP and 2 for ICMP. */
static size_t protocol_of(const struct limit *limit, const struct counted *one)
{
    return (size_t)(one - limit->mappings) / limit->ports;
}

/* The first mapping of the chain for an endpoint. */
static struct counted **chain_of(struct limit *limit, size_t protocol, uint32_t addr, uint16_t port)
{
    uint64_t hash = ((uint64_t)addr << 32 | protocol << 16 | port) + limit->key;
    hash = (hash ^ hash >> 32) * 0x9e3779b97f4a7c15;
    hash = (hash ^ hash >> 32) * 0xd6e8feb86659fd93;
    return &limit->chains[hash >> 46];
}

/* Puts a mapping into the index, and into the ring, so that it is looked at last. */
static void add(struct limit *limit, struct counter *counter, struct counted *one, uint16_t port)
{
    struct counted **chain = chain_of(limit, protocol_of(limit, one), counter->addr, port);
    struct counted *next = counter->count > 0 ? counter->next : one;
    struct counted *previous = counter->count > 0 ? next->previous : one;
    *one = (struct counted){.counter = counter, .next = next, .previous = previous, .chained = *chain,
                            .place_in_chain = chain, .port = port};
    next->previous = previous->next = one;
    counter->next = next;
    counter->count++;
    if (*chain != NULL)
        (*chain)->place_in_chain = &one->chained;
    *chain = one;
}

static void take_out(struct counted *one)
{
    struct counter *counter = one->counter;
    *one->place_in_chain = one->chained;
    if (one->chained != NULL)
        one->chained->place_in_chain = one->place_in_chain;
    one->next->previous = one->previous;
    one->previous->next = one->next;
    if (counter->next == one)
        counter->next = one->next;
    counter->count--;
    one->counter = NULL;
}

/* The mapping that was counted for an endpoint, or null. It may have ended. */
static struct counted *find(struct limit *limit, size_t protocol, uint32_t addr, uint16_t port)
{
    struct counted *one = *chain_of(limit, protocol, addr, port);
    while (one != NULL && (one->port != port || one->counter->addr != addr || protocol_of(limit, one) != protocol))
        one = one->chained;
    return one;
}

/* Looks at the next mappings of an address. Those that have ended no longer count. */
static void look(const struct limit *limit, struct counter *counter, const struct lk_mapping *mappings, uint64_t now)
{
    for (uint32_t looks = counter->count < MOST_LOOKS ? counter->count : MOST_LOOKS; looks > 0; looks--) {
        struct counted *one = counter->next;
        counter->next = one->next;
        if (now >= mappings[one - limit->mappings].expires)
            take_out(one);
    }
}

int is_within_limit(struct limit *limit, struct lk_mapping *mappings, size_t place, uint64_t now)
{
    uint32_t addr = inside_of(&mappings[place]);
    uint16_t port = mappings[place].inside_port;
    struct counted *mapping = &limit->mappings[place], *before = find(limit, place / limit->ports, addr, port);
    if (before == mapping)
        return 1;
    if (before != NULL)
        take_out(before);
    if (mapping->counter != NULL)
        take_out(mapping);
    struct counter *counter = counter_of(limit, addr);
    if (counter != NULL && counter->count >= limit->most)
        look(limit, counter, mappings, now);
    if (counter == NULL || counter->count >= limit->most) {
        mappings[place].expires = 0;
        return 0;
    }
    counter->addr = addr;
    add(limit, counter, mapping, port);
    return 1;
}

int has_mapping(struct limit *limit, const struct lk_mapping *mappings, size_t protocol, const struct lk_mapping *endpoint,
                uint64_t now)
{
    const struct counted *one = find(limit, protocol, inside_of(endpoint), endpoint->inside_port);
    return one != NULL && now < mappings[one - limit->mappings].expires;
}
