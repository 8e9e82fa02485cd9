/* Worked answers of a host: frames from captures and from another program, the lines `host` of tests/frames/written.py, and
 * the recorded lines `worked_replies` of tests/data/calls. */
#include <limits.h>
#include <stdio.h>
#include <stdlib.h>
#include "worked.h"

/* ---- frames ---- */

/* The host that is asked, with these open ports. */
static struct lk_host asked_host(const uint16_t *ports, size_t count)
{
    struct lk_host host;
    memset(&host, 0, sizeof host);
    host.open_ports = ports;
    host.open_port_count = count;
    host.ipv4 = addr("192.0.2.2");
    host.ipv6 = addr("2001:db8::2");
    memcpy(host.hardware, "\2\0\0\0\0\2", 6);
    host.echo_port = 7;
    host.seq_number = 0x0a0b0c0d;
    host.tsval = 0x55667788;
    host.window_len = 0x7210;
    host.mss = 1460;
    host.window_scale = 7;
    return host;
}

#define ANSWERS(host, frame, answer) WRITES(answer, both_answer(&host, frame.at, frame.len, out, cap))
#define IGNORES(host, frame) FAILS(0, both_answer(&host, frame.at, frame.len, out, ROOM))

static void answers(void)
{
    static const uint16_t ports[2] = {22, 80};
    const struct lk_host open = asked_host(ports, 2), closed = asked_host(ports, 1);
    ANSWERS(open, arp_request, arp_reply);
    ANSWERS(open, ping, pong);
    ANSWERS(open, ping6, pong6);
    ANSWERS(open, syn, syn_ack);
    ANSWERS(open, syn6, syn_ack6);
    ANSWERS(open, ack6, ack_reset6);
    ANSWERS(closed, syn, syn_reset);
    ANSWERS(closed, syn6, syn_reset6);
    IGNORES(open, arp_reply);
    IGNORES(open, pong);
    IGNORES(open, syn_reset);
}

/* Hosts with other numbers. */
static void ignores(void)
{
    static const uint16_t ports[2] = {22, 80}, served[1] = {7};
    const struct lk_host open = asked_host(ports, 2);
    struct lk_host mute = asked_host(ports, 1);
    mute.open_udp_ports = served, mute.open_udp_port_count = 1;
    mute.echo_port = 0;
    IGNORES(mute, ping);
    mute.echo_port = 9;
    IGNORES(mute, ping6);
    mute = open, mute.ipv4.octets[3] = 3;
    IGNORES(mute, arp_request);
    IGNORES(mute, syn);
    mute = open, mute.ipv6.octets[15] = 3;
    IGNORES(mute, syn6);
    mute = open, mute.hardware[5] = 3;
    IGNORES(mute, ping);
    FAILS(0, both_answer(&open, ping.at, 0, out, ROOM));
    FAILS(LK_NO_HEADER, both_answer(&open, ping.at, LK_MAX_LEN + 1, out, ROOM));
    FAILS(LK_NO_HEADER, both_answer(&open, ping.at, (size_t)LK_NO_ROOM, out, ROOM));
    mute = open, mute.ipv6.version = 4;
    FAILS(LK_NO_VERSION, both_answer(&mute, ping.at, (size_t)LK_NO_ROOM, out, ROOM));
}

/* What an open port offers, and the checksum of its answer to `syn`. A scale above 14 is sent as 14. The
 * checksum of `syn_ack`, 0x3dcb, changes with each number as RFC 1624 says. */
static const struct {
    uint16_t mss, window_len;
    uint8_t window_scale, sent, checksum[2];
} offers[] = {
    {1460, 0x7210, 7, 7, {0x3d, 0xcb}},    {0, 0x7210, 7, 7, {0x43, 0x7f}},      {65535, 0x7210, 7, 7, {0x43, 0x7f}},
    {1460, 0x7210, 0, 0, {0x44, 0xcb}},    {1460, 0x7210, 14, 14, {0x36, 0xcb}}, {1460, 0x7210, 15, 14, {0x36, 0xcb}},
    {1460, 0x7210, 255, 14, {0x36, 0xcb}}, {1460, 0, 7, 7, {0xaf, 0xdb}},
};

static void offers_of_hosts(void)
{
    static const uint16_t ports[1] = {80};
    for (size_t i = 0; i < sizeof offers / sizeof offers[0]; i++) {
        struct lk_host host = asked_host(ports, 1);
        struct octets expected = syn_ack;
        host.mss = offers[i].mss;
        host.window_len = offers[i].window_len;
        host.window_scale = offers[i].window_scale;
        expected.at[48] = (uint8_t)(offers[i].window_len >> 8), expected.at[49] = (uint8_t)offers[i].window_len;
        memcpy(expected.at + 50, offers[i].checksum, 2);
        expected.at[56] = (uint8_t)(offers[i].mss >> 8), expected.at[57] = (uint8_t)offers[i].mss;
        expected.at[60] = offers[i].sent;
        ANSWERS(host, syn, expected);
    }
}

/* A host ignores a frame that is cut off, or in which a bit of a byte after the Ethernet header is wrong. */
static void ignores_damaged_frames(void)
{
    static const uint16_t ports[1] = {80};
    const struct lk_host host = asked_host(ports, 1);
    struct octets damaged = syn6;
    for (damaged.len = 0; damaged.len < syn6.len; damaged.len++)
        IGNORES(host, damaged);
    for (size_t at = 14; at < syn.len; at++) {
        damaged = changed(syn, at, syn.at[at] ^ 1);
        IGNORES(host, damaged);
    }
}

/* ---- ICMP ---- */

static void answers_icmp(void)
{
    static const uint16_t served[2] = {9, 0x14e9}, others[2] = {0x14e8, 0x14ea};
    const struct octets wrong = changed(echo_request, 46, 0), code = changed(echo_request, 35, 1);
    const struct octets other_group = changed(solicit, 5, 3), to_group = changed(to_closed_port, 0, 1);
    struct lk_host host = asked_host(0, 0), serving = host;
    host.echo_port = serving.echo_port = 0;
    host.open_udp_ports = others, serving.open_udp_ports = served;
    host.open_udp_port_count = serving.open_udp_port_count = 2;
    ANSWERS(host, echo_request, echo_reply);
    ANSWERS(host, echo_request6, echo_reply6);
    ANSWERS(host, solicit, advert);
    ANSWERS(host, probe, advert_to_all);
    ANSWERS(host, to_closed_port, unreachable);
    ANSWERS(host, to_closed_port6, unreachable6);
    IGNORES(serving, to_closed_port);
    IGNORES(serving, to_closed_port6);
    IGNORES(host, echo_reply);
    IGNORES(host, advert);
    IGNORES(host, unreachable);
    IGNORES(host, wrong);
    IGNORES(host, code);
    IGNORES(host, other_group);
    IGNORES(host, to_group);
}

/* A frame to a host, and the answer; 0: none. */
static const struct {
    const struct octets *frame;
    struct change before[CHANGES];
    const struct octets *answer;
    struct change after[CHANGES];
} pings[] = {
    {&echo12, {{0, 0}}, &echo12_reply, {{0, 0}}},
    {&echo12_6, {{0, 0}}, &echo12_reply6, {{0, 0}}},
    /* DSCP 46 and an ECN mark: the reply has the DSCP (RFC 1812, section 4.3.2.5) */
    {&echo12, {{15, 0xbb}, {24, 0xb1}, {25, 0x44}}, &echo12_reply, {{15, 0xb8}, {24, 0xb6}, {25, 0x19}}},
    {&echo12_6, {{14, 0x6b}, {15, 0xb0}}, &echo12_reply6, {{14, 0x6b}, {15, 0x80}}},
    {&echo12_reply, {{0, 0}}, 0, {{0, 0}}},
    {&echo12, {{45, 0x21}}, 0, {{0, 0}}}, /* a wrong checksum */
    {&solicit, {{21, 254}}, 0, {{0, 0}}}, /* over a router */
};

static void answers_pings(void)
{
    const struct lk_host host = asked_host(0, 0);
    struct octets broadcast = echo12;
    for (size_t i = 0; i < sizeof pings / sizeof *pings; i++) {
        const struct octets frame = cut(pings[i].frame, pings[i].frame->len, pings[i].before);
        if (pings[i].answer)
            ANSWERS(host, frame, cut(pings[i].answer, pings[i].answer->len, pings[i].after));
        else
            IGNORES(host, frame);
    }
    memset(broadcast.at, 0xff, 6);
    IGNORES(host, broadcast);
}

/* 0.0.0.0 and `::` stand for no address. */
static void ignores_without_an_address(void)
{
    static const struct change to_0[CHANGES] = {{24, 0x74}, {25, 0x02}, {30, 0}, {32, 0}, {33, 0}};
    static const struct change to_none6[CHANGES] = {{38, 0}, {39, 0}, {40, 0}, {41, 0}, {53, 0}, {56, 0xff}, {57, 0x88}};
    const struct octets frame = cut(&echo12, echo12.len, to_0), frame6 = cut(&echo12_6, echo12_6.len, to_none6);
    struct lk_host host = asked_host(0, 0);
    host.ipv4 = addr("0.0.0.0");
    host.ipv6 = addr("::");
    IGNORES(host, frame);
    IGNORES(host, frame6);
}

/* A bridge may send a frame of a group to each host by itself (RFC 6085). */
static void answers_frames_to_itself(void)
{
    const struct lk_host host = asked_host(0, 0);
    struct octets to_us = solicit;
    memcpy(to_us.at, host.hardware, 6);
    ANSWERS(host, to_us, advert);
    to_us = probe;
    memcpy(to_us.at, host.hardware, 6);
    ANSWERS(host, to_us, advert_to_all);
    to_us.at[5] = 3;
    IGNORES(host, to_us);
}

/* Any value but 0 is a router, and R is all that differs. */
static void answers_of_routers(void)
{
    static const struct change of_router[CHANGES] = {{56, 0x79}, {58, 0xa0}};
    struct lk_host router = asked_host(0, 0);
    router.echo_port = 0;
    router.is_router = 1;
    ANSWERS(router, solicit, router_advert);
    ANSWERS(router, probe, cut(&advert_to_all, advert_to_all.len, of_router));
    ANSWERS(router, echo_request6, echo_reply6);
    ANSWERS(router, to_closed_port6, unreachable6);
    router.is_router = 128;
    ANSWERS(router, solicit, router_advert);
}

/* ---- recorded lines: a name, a host, the bytes of its buffer, and a frame ---- */

enum { PORTS = 8 };

static uint8_t frame[MODEL_ROOM], answer[MODEL_ROOM];

/* The next word of the line. */
static char *word(void)
{
    char *found = strtok(0, " \n");
    CHECK(found != 0);
    return found;
}

static unsigned long number(void)
{
    return strtoul(word(), 0, 10);
}

/* Reads ports, joined by commas. Returns their number. */
static size_t read_ports(char *text, uint16_t *ports)
{
    size_t count = 0;
    if (strcmp(text, "-") == 0)
        return 0;
    for (; count < PORTS; text++) {
        ports[count++] = (uint16_t)strtoul(text, &text, 10);
        if (*text != ',')
            break;
    }
    return count;
}

/* Reads pairs of hex digits. Returns their number. */
static size_t read_octets(const char *text, uint8_t *octets)
{
    size_t len = strlen(text) / 2;
    for (size_t i = 0; i < len; i++) {
        const char digits[] = {text[2 * i], text[2 * i + 1], 0};
        octets[i] = (uint8_t)strtoul(digits, 0, 16);
    }
    return len;
}

static struct lk_host read_host(void)
{
    static uint16_t udp_ports[PORTS], ports[PORTS];
    struct lk_host host;
    const char *hardware;
    memset(&host, 0, sizeof host);
    hardware = word();
    CHECK(both_parse_mac(hardware, strlen(hardware), host.hardware) == 1);
    host.ipv4 = addr(word());
    host.ipv6 = addr(word());
    host.echo_port = (uint16_t)number();
    host.open_udp_port_count = read_ports(word(), udp_ports);
    host.open_udp_ports = udp_ports;
    host.open_port_count = read_ports(word(), ports);
    host.open_ports = ports;
    host.seq_number = (uint32_t)number();
    host.window_len = (uint16_t)number();
    host.mss = (uint16_t)number();
    host.window_scale = (uint8_t)number();
    host.tsval = (uint32_t)number();
    return host;
}

/* Whether the answer to a line is the recorded one, a name and an answer or `-`. */
static int is_answered_by(char *line, char *recorded)
{
    static uint8_t expected[MODEL_ROOM];
    struct lk_host host;
    size_t cap, len, expected_len;
    ptrdiff_t written;
    const char *name;
    CHECK(strcmp(strtok(line, " \n"), "host") == 0);
    name = word();
    host = read_host();
    cap = number();
    len = read_octets(word(), frame);
    written = both_answer(&host, frame, len, answer, cap);
    CHECK(strcmp(strtok(recorded, " \n"), name) == 0);
    expected_len = read_octets(word(), expected);
    return (written < 0 ? 0 : written) == (ptrdiff_t)expected_len && memcmp(answer, expected, expected_len) == 0;
}

/* The lines of FOLDER/KIND.call, and their answers in FOLDER/KIND.txt. */
static void worked_lines(const char *folder, const char *kind)
{
    char calls[PATH_MAX], answers[PATH_MAX];
    CHECK(snprintf(calls, sizeof calls, "%s/%s.call", folder, kind) < PATH_MAX);
    CHECK(snprintf(answers, sizeof answers, "%s/%s.txt", folder, kind) < PATH_MAX);
    FILE *lines = fopen(calls, "r"), *recorded = fopen(answers, "r");
    char *line = 0, *answer_line = 0;
    size_t line_room = 0, answer_room = 0, row = 1;
    CHECK(lines && recorded);
    for (; getline(&line, &line_room, lines) > 0; row++)
        CHECK_ROW(row, getline(&answer_line, &answer_room, recorded) > 0 && is_answered_by(line, answer_line));
    CHECK_ROW(row, getline(&answer_line, &answer_room, recorded) < 0);
    free(line);
    free(answer_line);
    fclose(lines);
    fclose(recorded);
}

void worked_hosts(const char *folder)
{
    answers();
    ignores();
    offers_of_hosts();
    ignores_damaged_frames();
    answers_icmp();
    answers_pings();
    ignores_without_an_address();
    answers_frames_to_itself();
    answers_of_routers();
    worked_lines(folder, "host");
    worked_lines("tests/data/calls", "worked_replies");
}
