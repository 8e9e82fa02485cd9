/* Worked calls of NAT: how many ports a row has. All ports are taken but one. An endpoint gets this one, and the mapping
 * where its first row begins notes a later row, if the port is in one. */
#include "worked.h"

enum { FIRST_PORT = 1000, MOST_PORTS = 6400 };

static struct lk_mapping mappings[LK_MAPPINGS(MOST_PORTS)];
static struct lk_nat nat = {{0x0706050403020100, 0x0f0e0d0c0b0a0908}, 300000, 7440000, 240000, 60000,
                            {203, 0, 113, 9}, FIRST_PORT, 0};

/* The numbers of outside ports at the bounds of the header's table, and those of the ports of a row. */
static const size_t sizes[][3] = {
    {1, 1, 1}, {62, 62, 62}, {125, 125, 125}, {126, 63, 94}, {188, 63, 94}, {629, 63, 94}, {630, 63, 70}, {2078, 63, 70},
    {6299, 63, 70}, {6300, 63, 66}, {6362, 63, 66},
};

/* The outside port of a UDP packet of this endpoint. */
static unsigned port_of(const struct lk_endpoint *inside, size_t ports)
{
    struct lk_frame headers;
    uint8_t frame[64];
    ptrdiff_t len;
    memset(&headers, 0, sizeof headers);
    headers.src = *inside;
    headers.dst = endpoint("198.51.100.1:53");
    headers.ip.hop_limit = 64;
    len = lk_emit_udp_frame(&headers, 0, 0, frame, sizeof frame);
    if (lk_translate_out(&nat, mappings, LK_MAPPINGS(ports), 0, frame, (size_t)len) != LK_NOT_REJECTED)
        return 0;
    return get_word(frame + 34);
}

/* Whether the row of a port was noted. It is forgotten. */
static int was_noted(size_t ports)
{
    int noted = 0;
    for (size_t i = 0; i < ports; i++) {
        noted += mappings[i].reach != 0;
        mappings[i].reach = 0;
    }
    return noted;
}

/* The number of ports in the first row of an endpoint. The others are taken by endpoints with these ports. */
static size_t row_len(const struct lk_endpoint *inside, size_t ports, size_t row)
{
    size_t count = 0;
    for (size_t i = 0; i < ports; i++) {
        struct lk_mapping taken = mappings[i];
        mappings[i].expires = 0;
        CHECK_ROW(row, port_of(inside, ports) == FIRST_PORT + i);
        mappings[i].expires = taken.expires;
        memcpy(mappings[i].inside, taken.inside, 4);
        mappings[i].inside_port = taken.inside_port;
        count += !was_noted(ports);
    }
    return count;
}

void worked_rows(void)
{
    for (size_t i = 0; i < sizeof sizes / sizeof *sizes; i++) {
        struct lk_endpoint other = endpoint("192.168.0.2:0"), inside = endpoint("192.168.0.3:9");
        size_t ports = sizes[i][0], len;
        memset(mappings, 0, sizeof mappings);
        for (size_t taken = 0; taken < ports; taken++) {
            other.port = (uint16_t)(FIRST_PORT + taken);
            CHECK_ROW(i, port_of(&other, ports) == other.port);
        }
        len = row_len(&inside, ports, i);
        CHECK_ROW(i, sizes[i][1] <= len && len <= sizes[i][2]);
    }
}
