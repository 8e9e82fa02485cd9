/* Tests programs/routing/limit.c: counts the instructions of a call where very many addresses are at their limit, and
 * compares what it allows with a count of all live mappings. */
#define _GNU_SOURCE
#include "../../programs/routing/router.h"
#include "../counts/steps.h"

#include <stdlib.h>

/* As in programs/nat.c: the most mappings, and the most of one address. */
enum { MAPPINGS = LK_MAPPINGS(64512), MOST_OF_ONE = 4096 };
/* The most instructions of a call. It may read 64 counters and 64 mappings. */
enum { MOST_STEPS = 2500, LOOKS = 64 };

static struct lk_mapping mappings[MAPPINGS];
static uint64_t most_steps;

static void check(int holds, const char *what, size_t number)
{
    if (holds)
        return;
    fprintf(stderr, "tests/kernel: wrong: the limit of mappings: %s (%zu)\n", what, number);
    exit(1);
}

/* An address of the network 10.0.0.0/8. */
static uint32_t addr_of(size_t number)
{
    uint8_t octets[4] = {10, (uint8_t)(number >> 16), (uint8_t)(number >> 8), (uint8_t)number};
    uint32_t addr;
    memcpy(&addr, octets, sizeof addr);
    return addr;
}

/* Opens a mapping, as lk_translate_out does. Returns whether it is within the limit. */
static int opens(struct limit *limit, size_t place, uint32_t addr, uint64_t expires, uint64_t now)
{
    mappings[place] = (struct lk_mapping){.expires = expires, .inside_port = (uint16_t)place};
    memcpy(mappings[place].inside, &addr, sizeof addr);
    return is_within_limit(limit, mappings, place, now);
}

/* The same, and counts the instructions. */
static int opens_counted(struct limit *limit, size_t place, uint32_t addr, uint64_t expires, uint64_t now)
{
    begin_steps();
    int is_within = opens(limit, place, addr, expires, now);
    end_steps();
    most_steps = steps > most_steps ? steps : most_steps;
    check(steps <= MOST_STEPS, "instructions of a call", steps);
    return is_within;
}

static struct limit *new_limit(size_t most)
{
    struct limit *limit = make_limit(most, MAPPINGS);
    check(limit != NULL, "out of memory", most);
    memset(mappings, 0, sizeof mappings);
    return limit;
}

/* Each of very many addresses is at its limit. */
static void one_of_each(void)
{
    enum { UNUSED = 10 };
    struct limit *limit = new_limit(1);
    for (size_t i = UNUSED; i < MAPPINGS; i++)
        check(opens(limit, i, addr_of(i), 100, 0), "a first mapping", i);
    for (size_t i = 0; i < UNUSED; i++) {
        check(!opens_counted(limit, i, addr_of(MAPPINGS - 1 - i), 100, 0), "a second mapping", i);
        check(mappings[i].expires == 0, "a mapping above the limit", i);
    }
    for (size_t i = 0; i < UNUSED; i++)
        check(opens_counted(limit, i, addr_of(MAPPINGS - 1 - i), 200, 100), "a mapping after one that has ended", i);
}

/* One address is at its limit. */
static void many_of_one(void)
{
    struct limit *limit = new_limit(MOST_OF_ONE);
    size_t tries = 1;
    for (size_t i = 0; i < MOST_OF_ONE; i++)
        check(opens(limit, i, addr_of(1), 100, 0), "a mapping within the limit", i);
    check(!opens_counted(limit, MOST_OF_ONE, addr_of(1), 100, 0), "a mapping above the limit", 0);
    mappings[MOST_OF_ONE / 2].expires = 1;
    for (; !opens(limit, MOST_OF_ONE, addr_of(1), 100, 1); tries++)
        check(tries < MOST_OF_ONE / LOOKS, "a mapping that has ended", tries);
    check(opens_counted(limit, MOST_OF_ONE + 1, addr_of(1), 200, 100), "a mapping after all have ended", 0);
    check(opens_counted(limit, 0, addr_of(2), 200, 100), "a mapping of another address", 0);
}

/* Whether the index has what a search of all mappings finds. */
static void check_index(struct limit *limit, size_t places, const struct lk_mapping *endpoint, uint64_t now)
{
    size_t live = 0;
    for (size_t i = 0; i < places; i++)
        live += now < mappings[i].expires && memcmp(mappings[i].inside, endpoint->inside, 4) == 0
                && mappings[i].inside_port == endpoint->inside_port;
    check(has_mapping(limit, mappings, 0, endpoint, now) == (live > 0), "the index", now);
    check(!has_mapping(limit, mappings, 1, endpoint, now), "the index of another protocol", now);
}

/* Any mappings of a few addresses, compared with a count of those that are live. */
static void any_mappings(void)
{
    enum { PLACES = 300, ADDRESSES = 5, MOST = 40, TURNS = 200000 };
    struct limit *limit = new_limit(MOST);
    srandom(1);
    for (uint64_t now = 1; now <= TURNS; now++) {
        size_t place = (size_t)random() % PLACES, live = 0;
        uint32_t addr = addr_of((size_t)random() % ADDRESSES), other;
        uint64_t expires = now + (uint64_t)random() % 400;
        memcpy(&other, mappings[place].inside, sizeof other);
        if (now < mappings[place].expires && other != addr)
            continue; /* it is not free */
        for (size_t i = 0; i < PLACES; i++)
            live += i != place && now < mappings[i].expires && memcmp(mappings[i].inside, &addr, sizeof addr) == 0;
        check(opens(limit, place, addr, expires, now) == (live < MOST), "a count of all mappings", now);
        struct lk_mapping endpoint = mappings[(size_t)random() % PLACES];
        endpoint.inside_port = (uint16_t)(random() % PLACES);
        check_index(limit, PLACES, &endpoint, now);
    }
}

int main(void)
{
    prepare_steps(NULL);
    one_of_each();
    many_of_one();
    any_mappings();
    if (most_steps == 0)
        printf("tests/kernel: skipped: instructions of the limit: the processor does not stop at each instruction\n");
    else
        printf("limit of mappings: a call takes at most %lu instructions\n", (unsigned long)most_steps);
    return 0;
}
