/* Cases of texts, addresses, checksums, sequence numbers and names. */
#include <stdio.h>
#include <string.h>
#include "judge.h"

/* ---- texts ---- */

struct text {
    char chars[256];
    size_t len;
};

static void add(struct text *text, const char *more)
{
    size_t len = strlen(more);
    memcpy(text->chars + text->len, more, len);
    text->len += len;
}

static void add_number(struct text *text, unsigned value, const char *format)
{
    char digits[40];
    sprintf(digits, format, value);
    add(text, digits);
}

static unsigned any_byte(void)
{
    return one_in(40) ? (unsigned)below(1000) : one_in(2) ? (unsigned)below(10) : (unsigned)below(256);
}

static void add_ipv4(struct text *text)
{
    static const char *const formats[] = {"%u", "%u", "%u", "%02u", "%03u"};
    for (int i = 0; i < 4; i++) {
        add_number(text, any_byte(), formats[below(5)]);
        if (i < 3)
            add(text, ".");
    }
}

static void add_groups(struct text *text, size_t count)
{
    static const char *const formats[] = {"%x", "%x", "%X", "%04x", "%04X", "%02x"};
    for (size_t i = 0; i < count; i++) {
        if (i > 0)
            add(text, ":");
        add_number(text, one_in(3) ? 0 : (unsigned)any() & (0xffffu >> 4 * below(4)), formats[below(6)]);
    }
}

static void add_ipv6(struct text *text)
{
    static const char *const mapped[] = {"::ffff:", "0:0:0:0:0:FFFF:", "0::ffff:", "::0:ffff:", "0:0:0:0::ffff:",
                                         "0:0:0:0:0:ffff::", "::", "::fffe:", "1::ffff:", "::ffff:0:", "64:ff9b::"};
    size_t pick = below(8), head = below(9);
    if (pick == 0) {
        add(text, mapped[one_in(3) ? below(11) : below(3)]);
        add_ipv4(text);
    } else if (pick < 3) {
        add_groups(text, one_in(8) ? 7 + below(3) : 8);
    } else {
        add_groups(text, head);
        add(text, "::");
        add_groups(text, one_in(8) ? below(9) : below(head < 7 ? 8 - head : 1));
    }
}

static void add_addr(struct text *text, int is_ipv6)
{
    if (is_ipv6)
        add_ipv6(text);
    else
        add_ipv4(text);
    if (one_in(24))
        add(text, one_in(2) ? "%eth0" : "%1");
}

static void add_ethernet(struct text *text)
{
    static const char *const formats[] = {"%02x", "%02X", "%x", "%X"};
    const char *mark = one_in(2) ? ":" : "-";
    size_t count = one_in(16) ? 5 + below(3) : 6;
    for (size_t i = 0; i < count; i++) {
        if (i > 0)
            add(text, one_in(64) ? "." : one_in(64) ? ":" : mark);
        add_number(text, (unsigned)any() & 0xff, formats[below(4)]);
    }
}

/* Changes, inserts or removes characters. */
static void change_text(struct text *text)
{
    static const char chars[] = "0123456789abcdefABCDEFgG:.%/[]-+ x\0\n";
    while (one_in(4)) {
        size_t at = below(text->len + 1);
        char any_char = one_in(16) ? (char)any() : chars[below(sizeof chars - 1)];
        if (one_in(2) && at < text->len) {
            text->chars[at] = any_char;
        } else if (one_in(2) && at < text->len) {
            text->len--;
            memmove(text->chars + at, text->chars + at + 1, text->len - at);
        } else {
            memmove(text->chars + at + 1, text->chars + at, text->len - at);
            text->chars[at] = any_char;
            text->len++;
        }
    }
}

/* A number, seldom with leading zeros or above `most`. */
static void add_decimal(struct text *text, unsigned most)
{
    static const char *const formats[] = {"%u", "%u", "%u", "%02u", "%03u", "%04u", "%05u", "%06u"};
    unsigned value = (unsigned)below(most + 1);
    if (one_in(8))
        value = most - 2 + (unsigned)below(5);
    if (one_in(24))
        value = (unsigned)any();
    add_number(text, value, formats[below(8)]);
}

/* A text as one of the calls expects it, or another one expects it. */
static void make_text(struct text *text, size_t kind)
{
    int is_ipv6 = one_in(2), is_bracketed;
    text->len = 0;
    if (one_in(64))
        kind = below(4);
    is_bracketed = kind == 2 && (one_in(24) ? !is_ipv6 : is_ipv6 && !one_in(8));
    if (kind == 3)
        add_ethernet(text);
    else if (is_bracketed)
        add(text, "[");
    if (kind < 3)
        add_addr(text, is_ipv6);
    if (is_bracketed)
        add(text, "]");
    if ((kind == 1 || kind == 2) && !one_in(8)) {
        add(text, kind == 1 ? "/" : ":");
        add_decimal(text, kind == 2 ? 65535 : is_ipv6 ? 128 : 32);
    }
    change_text(text);
}

static void parse_one(size_t kind, const struct text *text, size_t len)
{
    struct lk_prefix block;
    struct lk_endpoint endpoint;
    uint8_t octets[6];
    fill(&block, sizeof block);
    fill(&endpoint, sizeof endpoint);
    fill(octets, sizeof octets);
    switch (kind) {
    case 0:
        both_parse_addr(text->chars, len, &block.addr);
        break;
    case 1:
        both_parse_prefix(text->chars, len, &block);
        break;
    case 2:
        both_parse_endpoint(text->chars, len, &endpoint);
        break;
    default:
        both_parse_mac(text->chars, len, octets);
    }
}

void parse_text(void)
{
    size_t kind = below(4);
    struct text text;
    make_text(&text, kind);
    parse_one(kind, &text, text.len);
    if (one_in(64))
        parse_one(kind, &text, unused_len());
}

/* ---- printing ---- */

static struct lk_addr any_printed_addr(void)
{
    static const uint8_t mapped[12] = {0, 0, 0, 0, 0, 0, 0, 0, 0, 0, 0xff, 0xff};
    struct lk_addr addr = any_addr(any_version());
    if (addr.version == 6 && one_in(2))
        for (int i = 0; i < 16; i += 2)
            put_word(addr.octets + i, one_in(2) ? 0 : (unsigned)any() & (0xffffu >> 4 * below(4)));
    if (addr.version == 6 && one_in(8))
        memcpy(addr.octets, mapped, one_in(8) ? 10 : 12);
    return addr;
}

/* Room for the text: mostly enough, and mostly for the null too. */
static char out[300];

static size_t any_text_cap(ptrdiff_t len)
{
    size_t cap = len < 0 ? below(60) : one_in(4) ? below((size_t)len + 1) : (size_t)len + below(4);
    fill(out, sizeof out);
    return one_in(64) ? unused_len() : cap;
}

/* The longest text and its null fit into `text_len`. */
#define PRINT(kind, value, text_len)                                \
    do {                                                            \
        ptrdiff_t len = model_print_##kind(value, out, sizeof out); \
        both_print_##kind(value, out, any_text_cap(len));           \
        same_number("fits", 1, len < text_len);                     \
    } while (0)

void print_text(void)
{
    struct lk_prefix block = {any_printed_addr(), (uint16_t)(one_in(8) ? any() : below(132))};
    struct lk_endpoint endpoint = {any_printed_addr(), (uint16_t)any_port()};
    uint8_t hardware[6];
    any_hardware(hardware);
    PRINT(addr, &block.addr, LK_ADDR_TEXT);
    PRINT(prefix, &block, LK_PREFIX_TEXT);
    PRINT(endpoint, &endpoint, LK_ENDPOINT_TEXT);
    PRINT(mac, hardware, LK_MAC_TEXT);
}

/* A frame that was read, and then any values. */
void print_frame(void)
{
    struct lk_frame frame;
    make_frame();
    model_read_captured(made.octets, one_in(4) ? below(made.len + 1) : made.len, made.len, &frame);
    PRINT(frame, &frame, LK_FRAME_TEXT);
    fill(&frame, sizeof frame);
    frame.src.addr = any_addr(any_version());
    frame.dst.addr = any_addr(one_in(8) ? any_version() : frame.src.addr.version);
    frame.network = (uint8_t)below(LK_IPV6 + 1);
    frame.transport = (uint8_t)below(LK_ICMP + 1);
    frame.rejected = (uint8_t)below(LK_ICMP + 1);
    frame.is_fragment = (uint8_t)below(2);
    frame.reason = (uint8_t)below(LK_REASON_COUNT);
    frame.ipv4_checksum = (uint8_t)below(LK_CHECKSUM_CUT + 1);
    frame.transport_checksum = (uint8_t)below(LK_CHECKSUM_CUT + 1);
    PRINT(frame, &frame, LK_FRAME_TEXT);
}
