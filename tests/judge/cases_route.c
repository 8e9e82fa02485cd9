/* Cases of a router, of NAT and of routes. */
#include <string.h>
#include "judge.h"

/* ---- a router and NAT ---- */

static uint8_t frame[MODEL_ROOM];

/* The frame that was made last, which the call may change. */
static uint8_t *copy_made(void)
{
    return memcpy(frame, made.octets, made.len);
}

static void forward_one(size_t len)
{
    uint8_t src[6], dst[6];
    any_hardware(src);
    any_hardware(dst);
    both_forward(copy_made(), len, src, dst);
}

static void translate_one(size_t len)
{
    static const int sides[] = {LK_SOURCE, LK_SOURCE, LK_DESTINATION, LK_DESTINATION, -1, 256, 0x10000};
    int side = sides[below(7)];
    struct lk_endpoint end = {any_addr(one_in(32) ? any_version() : 4), (uint16_t)(one_in(8) ? 0 : any_port())};
    both_translate(copy_made(), len, side, &end);
}

static void clamp_one(size_t len)
{
    static const uint16_t common[] = {0, 536, 1220, 1460, 65535};
    uint16_t mss = (uint16_t)(one_in(2) ? any() : common[below(5)]);
    both_clamp_mss(copy_made(), len, mss);
    both_clamp_mss_as(copy_made(), len, mss, any_offload());
}

/* Mostly over IPv4, because NAT does not translate others. */
static void make_any_frame(void)
{
    size_t tries = 3;
    do
        if (one_in(3))
            make_valid();
        else
            make_frame();
    while (tries-- > 0 && get_word(made.octets + 12) != 0x0800);
}

void forward_frame(void)
{
    make_any_frame();
    forward_one(made.len);
    translate_one(made.len);
    clamp_one(made.len);
    if (one_in(64))
        forward_one(unused_len());
    if (one_in(64))
        translate_one(unused_len());
    if (one_in(64))
        clamp_one(unused_len());
}

/* ---- routes ---- */

enum { ROUTES = 72 };

/* A list of routes whose blocks often contain each other. A large one divides the parts of its index. */
static struct lk_route routes[ROUTES];

/* An address in the block of a route, or beside it. */
static struct lk_addr any_addr_near(const struct lk_prefix *block)
{
    struct lk_addr addr = block->addr;
    size_t bits = 8 * addr_len(&addr), bit;
    if (bits == 0 || one_in(8))
        return any_addr(any_version());
    if (one_in(2))
        fill(addr.octets + block->prefix_len / 8 % 16, 1);
    bit = one_in(2) ? below(bits) : block->prefix_len % bits;
    if (one_in(2))
        addr.octets[bit / 8] ^= (uint8_t)(0x80 >> bit % 8);
    return addr;
}

static void any_routes(size_t count)
{
    unsigned wrong = (unsigned)below(40);
    fill(routes, count * sizeof *routes);
    for (size_t i = 0; i < count; i++) {
        struct lk_prefix *block = &routes[i].prefix;
        block->addr = any_addr(one_in(2) ? 4 : 6);
        if (i > 0 && !one_in(4))
            block->addr = any_addr_near(&routes[below(i)].prefix);
        block->prefix_len = (uint16_t)below(8 * addr_len(&block->addr) + 1);
        if (wrong == 0 && one_in(4))
            block->prefix_len = (uint16_t)(one_in(2) ? any() : 8 * addr_len(&block->addr) + below(3));
        if (wrong > 1 && addr_len(&block->addr) == 0)
            block->addr = any_addr(4);
        routes[i].interface = (uint16_t)below(4);
    }
}

/* The table of the index that was made last, and cells after it. */
enum { FOLLOWING = 12 };
static uint64_t cells[LK_ROUTE_TABLE_LEN(ROUTES) + FOLLOWING];

/* Returns whether there is a table now. */
static int make_table(const struct lk_route_node *nodes, size_t count)
{
    size_t len = LK_ROUTE_TABLE_LEN(count), cell_count = one_in(8) ? below(len) : len + below(FOLLOWING);
    fill(cells, sizeof cells);
    if (one_in(32))
        both_make_route_table(nodes, count, cells, len - 1);
    if (one_in(64))
        both_make_route_table(nodes, MODEL_NO_TABLE + below(3), cells, (size_t)1 << (29 + below(12)));
    if (one_in(64))
        both_make_route_table(nodes, unused_len(), cells, cell_count);
    if (one_in(64))
        cell_count = unused_len();
    return both_make_route_table(nodes, count, cells, cell_count) >= 0;
}

/* By the index, and by its table. */
static void look_up(const struct lk_route_node *nodes, size_t count, size_t cell_count, const struct lk_addr *addr)
{
    ptrdiff_t route = both_choose_route(nodes, count, addr);
    uint16_t interface = route >= 0 && one_in(2) ? routes[route].interface : (uint16_t)below(4);
    both_check_source(routes, count, nodes, count, addr, interface);
    both_choose_route_by_table(nodes, count, cells, cell_count, addr);
    both_check_source_by_table(routes, count, nodes, count, cells, cell_count, addr, interface);
}

/* An index of so many routes, and its table. Cells may follow it, or too few are given. At times a list is too long: it
 * counts as empty. */
static void look_up_any(const struct lk_route_node *nodes, size_t count, int has_table)
{
    struct lk_addr addr = any_addr(any_version());
    size_t len = LK_ROUTE_TABLE_LEN(count), cell_count = has_table ? len + below(FOLLOWING) : below(len);
    if (count > 0)
        addr = any_addr_near(&routes[below(count)].prefix);
    if (one_in(16))
        cell_count = one_in(4) ? unused_len() : below(len);
    if (one_in(64))
        look_up(nodes, unused_len(), below(LK_ROUTE_TABLE_LEN(0)), &addr);
    else
        look_up(nodes, count, cell_count, &addr);
}

static struct lk_route_node anything[ROUTES];

static void fill_nodes(size_t count)
{
    fill(anything, count * sizeof *anything);
    for (size_t i = 0; i < count; i++) {
        anything[i].version = one_in(4) ? anything[i].version : one_in(2) ? 4 : 6;
        anything[i].above = one_in(4) ? anything[i].above : (uint32_t)below(count + 2);
        anything[i].route = one_in(4) ? anything[i].route : (uint32_t)below(count + 2);
    }
}

/* Changes so many cells. The numbers are often small, or large with a small last half, as those of tables. */
static void change_cells(size_t cell_count)
{
    for (size_t i = below(4); i < cell_count; i += 1 + below(8)) {
        uint64_t half = one_in(4) ? any() : below(2 * ROUTES + 4);
        cells[i] = one_in(4) ? any() : (one_in(2) ? any() : below(2 * ROUTES + 4)) << 32 | (half & UINT32_MAX);
    }
}

/* Any nodes: what comes is open, but nothing outside may be accessed. */
static void look_up_anything(size_t count)
{
    struct lk_addr any_one = any_addr(any_version());
    const struct lk_route *placed;
    const struct lk_route_node *nodes;
    const struct lk_addr *addr;
    fill_nodes(count);
    CALL(lk_choose_route);
    nodes = given("nodes", anything, count * sizeof *nodes);
    addr = given("addr", &any_one, sizeof *addr);
    end_call(1, lk_choose_route(nodes, count, addr) >= -1);
    CALL(lk_check_source);
    placed = given("routes", routes, count * sizeof *routes);
    nodes = given("nodes", anything, count * sizeof *nodes);
    addr = given("addr", &any_one, sizeof *addr);
    end_call(1, lk_check_source(placed, count, nodes, count, addr, 0) >= 0);
}

/* A table of any nodes. */
static void make_any_table(size_t count)
{
    size_t len = LK_ROUTE_TABLE_LEN(count);
    const struct lk_route_node *nodes;
    uint64_t *any_cells;
    CALL(lk_make_route_table);
    nodes = given("nodes", anything, count * sizeof *nodes);
    any_cells = room(cells, len * sizeof *cells);
    end_call((ptrdiff_t)len, lk_make_route_table(nodes, count, any_cells, len));
    memcpy(cells, any_cells, len * sizeof *cells);
}

/* The same for cells, beside the nodes of an index or any nodes. */
static void look_up_any_cells(const struct lk_route_node *of_index, size_t count)
{
    size_t cell_count = one_in(2) ? LK_ROUTE_TABLE_LEN(count) : below(LK_ROUTE_TABLE_LEN(ROUTES));
    struct lk_addr any_one = any_addr(one_in(8) ? any_version() : 4);
    const struct lk_route *placed;
    const struct lk_route_node *nodes, *chosen = one_in(2) ? of_index : anything;
    const uint64_t *any_cells;
    const struct lk_addr *addr;
    if (!one_in(4))
        change_cells(cell_count);
    if (one_in(2))
        fill(any_one.octets, 4);
    CALL(lk_choose_route_by_table);
    nodes = given("nodes", chosen, count * sizeof *nodes);
    any_cells = given("cells", cells, cell_count * sizeof *cells);
    addr = given("addr", &any_one, sizeof *addr);
    end_call(1, lk_choose_route_by_table(nodes, count, any_cells, cell_count, addr) >= -1);
    CALL(lk_check_source_by_table);
    placed = given("routes", routes, count * sizeof *routes);
    nodes = given("nodes", chosen, count * sizeof *nodes);
    any_cells = given("cells", cells, cell_count * sizeof *cells);
    addr = given("addr", &any_one, sizeof *addr);
    end_call(1, lk_check_source_by_table(placed, count, nodes, count, any_cells, cell_count, addr, 0) >= 0);
}

void choose_route(void)
{
    static struct lk_route_node nodes[ROUTES + 2];
    size_t count = below(one_in(4) ? ROUTES + 1 : 6), node_count = one_in(8) ? below(ROUTES + 2) : count + below(2);
    int has_table;
    any_routes(count);
    if (one_in(64))
        node_count = unused_len();
    fill(nodes, sizeof nodes);
    if (one_in(64))
        both_index_routes(routes, unused_len(), nodes, node_count);
    if (one_in(64))
        both_index_routes(routes, 0, nodes, unused_len());
    if (both_index_routes(routes, count, nodes, node_count) < 0)
        return;
    has_table = make_table(nodes, count);
    for (int i = 0; i < 4; i++)
        look_up_any(nodes, count, has_table);
    look_up_anything(count);
    if (one_in(4))
        make_any_table(count);
    look_up_any_cells(nodes, count);
}
