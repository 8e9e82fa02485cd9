/* Worked calls of texts, addresses, checksums and sequence numbers. */
#include "worked.h"

/* Parses `text` as a block, and prints it as `printed`. The block contains 10.255.0.1 if `member`. */
static int is_block(const char *text, const char *printed, int member)
{
    struct lk_prefix block;
    struct lk_addr ten = addr("10.255.0.1");
    char text_out[43];
    memset(&block, OLD, sizeof block);
    if (!both_parse_prefix(text, strlen(text), &block))
        return 0;
    ptrdiff_t len = both_print_prefix(&block, text_out, sizeof text_out);
    return len == (ptrdiff_t)strlen(printed) && memcmp(text_out, printed, strlen(printed)) == 0 &&
           both_contains(&block, &ten) == member;
}

static int is_addr(const char *text, const char *printed)
{
    struct lk_addr address = addr(text);
    char text_out[39];
    ptrdiff_t len = both_print_addr(&address, text_out, sizeof text_out);
    return len == (ptrdiff_t)strlen(printed) && memcmp(text_out, printed, strlen(printed)) == 0;
}

static int is_endpoint(const char *text, const char *printed, uint16_t port)
{
    struct lk_endpoint e = endpoint(text);
    char text_out[47];
    ptrdiff_t len = both_print_endpoint(&e, text_out, sizeof text_out);
    return e.port == port && len == (ptrdiff_t)strlen(printed) && memcmp(text_out, printed, strlen(printed)) == 0;
}

static void texts(void)
{
    static const struct lk_addr four = {{192, 0, 2, 1}, 4},
                                six = {{0x20, 1, 0x0d, 0xb8, 0, 0, 0, 0, 0, 0, 0, 0, 0, 0, 0, 1}, 6};
    struct lk_addr a = addr("192.0.2.1"), b = addr("2001:DB8:0::1");
    uint8_t octets[6];
    char text[17];
    CHECK(memcmp(&a, &four, sizeof a) == 0 && memcmp(&b, &six, sizeof b) == 0);
    CHECK(is_addr("192.0.2.1", "192.0.2.1") && is_addr("2001:db8::1", "2001:db8::1"));
    CHECK(is_block("192.0.2.1/24", "192.0.2.1/24", 0) && is_block("2001:db8::1/32", "2001:db8::1/32", 0));
    CHECK(is_endpoint("[2001:db8::1]:80", "[2001:db8::1]:80", 80));
    CHECK(is_addr("010.0.0.1", "10.0.0.1") && is_addr("::ffff:192.168.1.1", "::ffff:192.168.1.1"));
    CHECK(is_block("10.1.2.3/8", "10.1.2.3/8", 1) && is_block("10.1.2.3/16", "10.1.2.3/16", 0));
    CHECK(is_block("::/0", "::/0", 0) && is_block("0.0.0.0/0", "0.0.0.0/0", 1));
    CHECK(is_block("10.255.0.1/32", "10.255.0.1/32", 1) && is_block("10.255.0.0/32", "10.255.0.0/32", 0));
    CHECK(is_block("10.255.0.0/31", "10.255.0.0/31", 1) && is_block("::1/128", "::1/128", 0));
    CHECK(is_endpoint("192.0.2.1:65535", "192.0.2.1:65535", 65535) && is_endpoint("192.0.2.1", "192.0.2.1:0", 0));
    CHECK(is_endpoint("[FE80::1]:80", "[fe80::1]:80", 80) && is_endpoint("fe80::1", "[fe80::1]:0", 0));
    CHECK(both_parse_mac("AB-cd-ef-0-0-1", 14, octets) == 1 && memcmp(octets, "\xab\xcd\xef\0\0\1", 6) == 0);
    CHECK(both_print_mac(octets, text, 17) == 17 && memcmp(text, "ab-cd-ef-00-00-01", 17) == 0);
}

/* The texts of the header's table, and the calls that parse them: addresses, endpoints, blocks and Ethernet addresses. */
static void table_of_texts(void)
{
    static const struct {
        const char *text;
        int is_addr, is_endpoint, is_block, is_ethernet;
    } rows[] = {
        {"01.002.3.4", 1, 1, 0, 0},
        {"0001.2.3.4", 0, 0, 0, 0},
        {"256.1.1.1", 0, 0, 0, 0},
        {"0001::", 1, 1, 0, 0},
        {"00001::", 0, 0, 0, 0},
        {"1:2:3:4:5:6:7::", 1, 1, 0, 0},
        {"::2:3:4:5:6:7:8", 1, 1, 0, 0},
        {"1:2:3:4::5:6:7:8", 0, 0, 0, 0},
        {"1::2::3", 0, 0, 0, 0},
        {"::ffff:1.2.3.4", 1, 1, 0, 0},
        {"0::ffff:1.2.3.4", 1, 1, 0, 0},
        {"0:0:0:0:0:ffff:1.2.3.4", 1, 1, 0, 0},
        {"::0:ffff:1.2.3.4", 0, 0, 0, 0},
        {"::1.2.3.4", 0, 0, 0, 0},
        {"64:ff9b::1.2.3.4", 0, 0, 0, 0},
        {"::0ffff:1.2.3.4", 0, 0, 0, 0},
        {"1:2:3:4:5:6:1.2.3.4", 0, 0, 0, 0},
        {"fe80::1%eth0", 0, 0, 0, 0},
        {"1.2.3.4/00", 0, 0, 1, 0},
        {"::/000", 0, 0, 1, 0},
        {"1.2.3.4/024", 0, 0, 0, 0},
        {"::/0000", 0, 0, 0, 0},
        {"1.2.3.4/33", 0, 0, 0, 0},
        {"1.2.3.4/", 0, 0, 0, 0},
        {"1.2.3.4:00080", 0, 1, 0, 0},
        {"1.2.3.4:000080", 0, 0, 0, 0},
        {"1.2.3.4:65536", 0, 0, 0, 0},
        {"1.2.3.4:", 0, 0, 0, 0},
        {"[::1]:80", 0, 1, 0, 0},
        {"[::1]", 0, 0, 0, 0},
        {"[1.2.3.4]:80", 0, 0, 0, 0},
        {"1-2-3-4-5-6", 0, 0, 0, 1},
        {"001-2-3-4-5-6", 0, 0, 0, 0},
        {"1:2-3:4:5:6", 0, 0, 0, 0},
    };
    struct lk_addr a;
    struct lk_endpoint e;
    struct lk_prefix b;
    uint8_t octets[6];
    for (size_t i = 0; i < sizeof rows / sizeof rows[0]; i++) {
        const char *text = rows[i].text;
        size_t len = strlen(text);
        CHECK_ROW(i, both_parse_addr(text, len, &a) == rows[i].is_addr);
        CHECK_ROW(i, both_parse_endpoint(text, len, &e) == rows[i].is_endpoint);
        CHECK_ROW(i, both_parse_prefix(text, len, &b) == rows[i].is_block);
        CHECK_ROW(i, both_parse_mac(text, len, octets) == rows[i].is_ethernet);
    }
}

/* Texts that no call parses: too large a number, white space, a missing part, a scope, wrong brackets, no text. */
static const struct {
    const char *text;
    size_t len;
} no_texts[] = {
    {"", 0},
    {"1.2.3.4/33", 10},
    {"1.2.3.4:65536", 13},
    {"1.2.3.4 ", 8},
    {"1.2.3", 5},
    {"fe80::1%eth0", 12},
    {"fe80::1/129", 11},
    {"[fe80::1]", 9},
    {"[1.2.3.4]:5", 11},
    {"1.2.3.4", 8},
    {"\xff\xff\xff\xff", 4},
    {"0-0-0-0-0", 9},
};

static void rejected_texts(void)
{
    for (size_t i = 0; i < sizeof no_texts / sizeof no_texts[0]; i++) {
        const char *text = no_texts[i].text;
        size_t len = no_texts[i].len;
        struct lk_endpoint endpoint = {{{1}, 2}, 3};
        struct lk_prefix block = {{{1}, 2}, 3};
        uint8_t octets[6] = {1};
        CHECK_ROW(i, both_parse_addr(text, len, &block.addr) == 0 && both_parse_prefix(text, len, &block) == 0);
        CHECK_ROW(i, both_parse_endpoint(text, len, &endpoint) == 0);
        CHECK_ROW(i, both_parse_mac(text, len, octets) == 0);
        CHECK_ROW(i, block.addr.version == 2 && block.prefix_len == 3 && endpoint.port == 3 && octets[0] == 1);
    }
}

static void classes(void)
{
    struct lk_addr group = addr("239.255.255.255"), host = addr("223.255.255.255"), all = addr("255.255.255.255"),
                   none = addr("0.0.0.0");
    struct lk_addr group6 = addr("ff02::1"), host6 = addr("fe80::1"), site6 = addr("ff05::1:3"), none6 = addr("::"),
                   no_version = {{1}, 0};
    CHECK(both_is_multicast(&group) == 1 && both_is_multicast(&group6) == 1 && both_is_multicast(&site6) == 1);
    CHECK(!both_is_multicast(&host) && !both_is_multicast(&host6) && !both_is_multicast(&no_version));
    CHECK(both_is_unicast(&host) == 1 && both_is_unicast(&host6) == 1);
    CHECK(!both_is_unicast(&group) && !both_is_unicast(&group6) && !both_is_unicast(&all));
    CHECK(!both_is_unicast(&none) && !both_is_unicast(&none6) && !both_is_unicast(&no_version));
}

/* Bytes at an offset that are replaced. */
static const struct {
    uint16_t checksum;
    size_t offset, before_len, after_len;
    uint8_t before[4], after[4];
    uint16_t updated;
} replaced[] = {
    {0xdd2f, 0, 2, 2, {0x55, 0x55}, {0x32, 0x85}, 0x0000},           /* RFC 1624, section 4 */
    {0x8fe6, 8, 1, 1, {0x3f}, {0x3e}, 0x90e6},                       /* a hop limit */
    {0xb1e6, 12, 4, 4, {192, 0, 2, 1}, {198, 51, 100, 7}, 0x49ad},
    {0x4ea2, 23, 2, 2, {0x05, 0xa0}, {0x04, 0xc4}, 0x2aa3},          /* an MSS */
    {0x220d, 3, 3, 3, {0x03, 0xf4, 0xf5}, {0, 0, 0}, 0x1706},        /* the example of RFC 1071, section 3 */
    {0x220d, 1, 1, 1, {0x01}, {0xfe}, 0x2110},
    {0x220d, 2, 2, 0, {0xf2, 0x03}, {0}, 0x1411},
    {0x1411, 2, 0, 2, {0}, {0xf2, 0x03}, 0x220d},
    {0x220d, 5, 3, 1, {0xf5, 0xf6, 0xf7}, {0xaa}, 0x1950},           /* nothing follows */
};

static void replaced_bytes(void)
{
    for (size_t i = 0; i < sizeof replaced / sizeof replaced[0]; i++) {
        uint16_t checksum = replaced[i].checksum, updated = replaced[i].updated;
        CHECK_ROW(i, both_update_checksum_bytes(checksum, replaced[i].offset, replaced[i].before, replaced[i].before_len,
                                                replaced[i].after, replaced[i].after_len) == updated);
        CHECK_ROW(i, both_update_udp_checksum_bytes(checksum, replaced[i].offset, replaced[i].before,
                                                    replaced[i].before_len, replaced[i].after,
                                                    replaced[i].after_len) == (updated == 0 ? 0xffff : updated));
        CHECK_ROW(i, both_update_udp_checksum_bytes(0, replaced[i].offset, replaced[i].before, replaced[i].before_len,
                                                    replaced[i].after, replaced[i].after_len) == 0);
    }
}

static void numbers(void)
{
    static const uint8_t rfc1071[8] = {0x00, 0x01, 0xf2, 0x03, 0xf4, 0xf5, 0xf6, 0xf7};
    CHECK(both_checksum(rfc1071, 8) == 0xddf2 && both_checksum(rfc1071, 7) == 0xdcfb);
    /* RFC 1624, section 4: the checksum 0xdd2f, and 0x5555 changed to 0x3285 */
    CHECK(both_update_checksum(0xdd2f, 0x5555, 0x3285) == 0x0000);
    CHECK(both_update_checksum(0x8fe6, 0x3f11, 0x3e11) == 0x90e6);
    CHECK(both_update_udp_checksum(0xdd2f, 0x5555, 0x3285) == 0xffff &&
          both_update_udp_checksum(0, 0x5555, 0x3285) == 0);
    /* the header's table, by RFC 1624, equation 3 */
    CHECK(both_update_checksum(0xffff, 5, 5) == 0 && both_update_checksum(0, 7, 7) == 0);
    CHECK(both_update_checksum(0xffff, 0xffff, 0) == 0xffff && both_update_udp_checksum(0xffff, 5, 5) == 0xffff);
    struct lk_addr inside = addr("192.0.2.1"), outside = addr("198.51.100.7"), old6 = addr("2001:db8::1"),
                   new6 = addr("fe80::ff");
    CHECK(both_update_checksum_addr(0xb1e6, &inside, &outside) == 0x49ad);
    CHECK(both_update_checksum_addr(0x1c46, &old6, &new6) == 0x4a80);
    CHECK(both_update_checksum_addr(0x6839, &inside, &outside) == 0);
    CHECK(both_update_udp_checksum_addr(0x6839, &inside, &outside) == 0xffff);
    CHECK(both_update_udp_checksum_addr(0, &inside, &outside) == 0);
    /* an echo reply that becomes all zeros: only 0xffff verifies */
    CHECK(both_update_checksum(0xedcb, 0x1234, 0) == 0);
    CHECK(both_add_seq(0xfffffff0, 0x20) == 0x10 && both_add_seq(5, 0xffffffff) == 4);
    CHECK(both_subtract_seq(0x10, 0xfffffff0) == 0x20 && both_subtract_seq(0xfffffff0, 0x10) == -0x20);
    CHECK(both_subtract_seq(7, 7) == 0 && both_subtract_seq(0x80000007, 7) == INT32_MIN);
    CHECK(both_compare_seq(0xfffffff0, 0x10) == -1 && both_compare_seq(0x10, 0xfffffff0) == 1 &&
          both_compare_seq(9, 9) == 0);
    CHECK(both_compare_seq(0, 0x80000000) == -1 && both_compare_seq(0x80000000, 0) == -1);
}

/* A payload of the checksum makes the next one 0: RFC 768 for UDP, RFC 9293, section 3.1, for TCP. */
static void computed_zeros(void)
{
    const struct lk_endpoint src = endpoint("192.0.2.1:7000"), dst = endpoint("192.0.2.2:7001");
    const struct lk_tcp header = {0};
    const struct lk_tcp_options options = {0};
    uint8_t payload[2] = {0, 0};
    CHECK(both_emit_udp(&src, &dst, payload, 2, 1, clear(), ROOM) == 10);
    memcpy(payload, out + 6, 2);
    CHECK(both_emit_udp(&src, &dst, payload, 2, 1, clear(), ROOM) == 10 && get_word(out + 6) == 0xffff);
    memset(payload, 0, 2);
    CHECK(both_emit_tcp(&header, &options, &src, &dst, payload, 2, 1, clear(), ROOM) == 22);
    memcpy(payload, out + 16, 2);
    CHECK(both_emit_tcp(&header, &options, &src, &dst, payload, 2, 1, clear(), ROOM) == 22 && get_word(out + 16) == 0);
}

void worked_values(void)
{
    computed_zeros();
    texts();
    table_of_texts();
    rejected_texts();
    classes();
    replaced_bytes();
    numbers();
}
