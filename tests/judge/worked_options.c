/* Worked calls that read the options of a TCP header: their values, and one by one. */
#include <stdio.h>
#include "worked.h"

static struct lk_tcp_options ranges(uint8_t count)
{
    struct lk_tcp_options options;
    memset(&options, 0, sizeof options);
    options.sack_range_count = count;
    for (uint32_t i = 0; i < count; i++) {
        options.sack_ranges[i].left = 0x10203040 + i;
        options.sack_ranges[i].right = 0x50607080 + i;
    }
    return options;
}

static struct lk_tcp_options size_and_scale(uint16_t mss, uint8_t window_scale)
{
    struct lk_tcp_options options = ranges(0);
    options.mss = mss;
    options.has_mss = mss != 0;
    options.window_scale = window_scale;
    options.has_window_scale = 1;
    return options;
}

static struct lk_tcp_options each_option(void)
{
    struct lk_tcp_options options = size_and_scale(0x05b4, 7);
    options.sack_permitted = 1;
    options.tsval = 0x81828384;
    options.tsecr = 0x91929394;
    options.has_timestamp = 1;
    return options;
}

static void reads_options(int line, const struct octets *header, struct lk_tcp_options expected)
{
    struct lk_tcp_options found;
    memset(&found, OLD, sizeof found);
    check(__FILE__, line, 0, both_find_tcp_options(header->at, header->len, &found) == 1);
    same_options(&expected, &found);
}

#define READS_OPTIONS(header, expected) reads_options(__LINE__, &header, expected)
#define REJECTS_OPTIONS(header, len) \
    (memset(&found, OLD, sizeof found), CHECK(both_find_tcp_options(header.at, len, &found) == 0), \
     same_options(&unchanged, &found))

static void reads_all_options(void)
{
    struct lk_tcp_options found, unchanged;
    memset(&unchanged, OLD, sizeof unchanged);
    READS_OPTIONS(all_options, each_option());
    READS_OPTIONS(four_ranges, ranges(4));
    READS_OPTIONS(two_ranges, ranges(2));
    READS_OPTIONS(repeated, size_and_scale(0x0202, 14)); /* a scale of 15 counts as 14 */
    READS_OPTIONS(after_end, size_and_scale(0, 5));
    READS_OPTIONS(no_options, ranges(0));
    REJECTS_OPTIONS(bad_option, bad_option.len);
    REJECTS_OPTIONS(bad_offset, bad_offset.len);
    REJECTS_OPTIONS(no_options, 19);
    REJECTS_OPTIONS(all_options, all_options.len - 1);
    REJECTS_OPTIONS(all_options, 0);
}

/* Steps through all options, and writes down each: its offset, length and kind. Returns whether one is malformed. */
static int steps(const struct octets *header, char *text)
{
    struct lk_tcp_option option = {0, 0, 0, 0};
    *text = 0;
    while (both_next_tcp_option(header->at, header->len, &option))
        text += sprintf(text, "%d+%d:%d ", option.offset, option.len, option.kind);
    return option.is_malformed;
}

/* A header: 20 bytes, of which one is its length, and the options. */
static struct octets header_with(const char *options)
{
    struct octets found = {{0}, 20 + strlen(options) / 2};
    found.at[12] = (uint8_t)(found.len / 4 << 4);
    memcpy(found.at + 20, octets(options).at, found.len - 20);
    return found;
}

static void steps_through_options(void)
{
    const struct octets padded = header_with("0101080a0000000100000002"),
                        cut_off = cut(&padded, 31, (struct change[CHANGES]){{0}});
    const struct {
        struct octets header;
        int is_malformed;
        const char *options;
    } rows[] = {
        {padded, 0, "20+1:1 21+1:1 22+10:8 "},
        {header_with("fe04abcd22020009"), 0, "20+4:254 24+2:34 26+1:0 "},
        {header_with("01010108"), 1, "20+1:1 21+1:1 22+1:1 "},
        {no_options, 0, ""},
        {bad_offset, 1, ""},
        {cut_off, 1, ""},
    };
    for (size_t i = 0; i < sizeof rows / sizeof rows[0]; i++) {
        char text[512];
        CHECK_ROW(i, steps(&rows[i].header, text) == rows[i].is_malformed && strcmp(text, rows[i].options) == 0);
    }
}

/* The rows of the header's table: an option of each kind, with accepted and other lengths. */
static void accepts_lengths(void)
{
    static const struct {
        const char *options;
        int is_accepted, has_timestamp;
    } rows[] = {
        {"02040218", 1, 0},
        {"02020101", 0, 0},
        {"0205021801010101", 0, 0},
        {"03030701", 1, 0},
        {"03020101", 0, 0},
        {"03040701", 0, 0},
        {"04020101", 1, 0},
        {"04030101", 0, 0},
        {"05020101", 0, 0},
        {"050a00000001000000020101", 1, 0},
        {"050c00000001000000020000", 0, 0},
        {"05120000000100000002000000030000000401010000", 1, 0},
        {"05220000000100000002000000030000000400000005000000060000000700000008010100000000", 1, 0},
        {"08020101", 1, 0},
        {"080a00000001000000020101", 1, 1},
        {"080b00000001000000020001", 1, 0},
        {"1e020101", 1, 0},
        {"1e010101", 0, 0},
        {"1e000101", 0, 0},
        {"1e050101", 0, 0}, /* it passes the header */
        {"0101011e", 0, 0},
        {"0000021e", 1, 0},
    };
    for (size_t i = 0; i < sizeof rows / sizeof rows[0]; i++) {
        struct octets header = header_with(rows[i].options);
        struct lk_tcp_options found;
        memset(&found, OLD, sizeof found);
        CHECK_ROW(i, both_find_tcp_options(header.at, header.len, &found) == rows[i].is_accepted);
        CHECK_ROW(i, !rows[i].is_accepted || found.has_timestamp == rows[i].has_timestamp);
    }
}

/* The order of the options, and zeros instead of ranges beside SACK permitted. */
static void writes_in_order(void)
{
    static const char permitted[] = "020405b40303c80402080a8182838491929394" "00000000000000000000000000",
                      others[] = "020405b40303c8050a1020304050607080080a8182838491929394" "00";
    struct lk_tcp_options options = each_option();
    const struct lk_endpoint src = endpoint("192.0.2.1:1"), dst = endpoint("192.0.2.2:2");
    const struct lk_tcp header = {0};
    struct octets wanted = header_with(permitted);
    options.window_scale = 200;
    options.sack_range_count = 1;
    options.sack_ranges[0] = ranges(1).sack_ranges[0];
    wanted.at[1] = 1, wanted.at[3] = 2;
    WRITES(wanted, both_emit_tcp(&header, &options, &src, &dst, 0, 0, 0, out, cap));
    options.sack_permitted = 0;
    wanted = header_with(others);
    wanted.at[1] = 1, wanted.at[3] = 2;
    WRITES(wanted, both_emit_tcp(&header, &options, &src, &dst, 0, 0, 0, out, cap));
}

/* A SYN of Linux, and frames without options or with a TCP header that is rejected. */
static void reads_options_of_frames(void)
{
    struct lk_tcp_options of_syn = size_and_scale(1460, 10);
    of_syn.sack_permitted = of_syn.has_timestamp = 1;
    of_syn.tsval = 0x39d3a625;
    const struct {
        struct octets frame;
        int reason;
        struct lk_tcp_options expected;
    } rows[] = {
        {syn, LK_READ, of_syn},
        {ack6, LK_READ, ranges(0)},
        {ping, LK_READ, ranges(0)},
        {changed(syn, 55, 3), LK_BAD_OPTIONS, ranges(0)}, /* a maximum segment size in 3 bytes */
        {changed(syn, 37, 0), LK_PORT_ZERO, ranges(0)},
        {changed(syn, 20, 0x20), LK_READ, ranges(0)}, /* a fragment */
        {nothing, LK_TOO_SHORT, ranges(0)},
    };
    for (size_t i = 0; i < sizeof rows / sizeof rows[0]; i++) {
        struct lk_frame frame;
        struct lk_tcp_options found;
        memset(&frame, OLD, sizeof frame);
        memset(&found, OLD, sizeof found);
        CHECK_ROW(i, both_read_frame_options(rows[i].frame.at, rows[i].frame.len, &frame, &found) == rows[i].reason);
        same_options(&rows[i].expected, &found);
    }
}

void worked_options(void)
{
    reads_all_options();
    accepts_lengths();
    writes_in_order();
    reads_options_of_frames();
    steps_through_options();
}
