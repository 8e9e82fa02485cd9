/* Worked calls of lk_fragment. Scapy packed the packets, computed their checksums, and cut those of IPv6. Which options
 * become no-operations in later fragments follows from RFC 791, section 3.1. */
#include <stdio.h>
#include "worked.h"

/* The packets of these frames, in hex digits. */
static const char plain[] = "45000020216000004011d569c0000201c0000202a1670007000cfb9270696e67";
static const char plain0[] = "4500001c216020004011b56dc0000201c0000202a1670007000cfb92";
static const char plain1[] = "45000018216000014011d570c0000201c000020270696e67";
static const char df[] = "450000202160400040119569c0000201c0000202a1670007000cfb9270696e67";
static const char own0[] = "4500001c123420004011c499c0000201c0000202a1670007000cfb92";
static const char own1[] = "45000018123400014011e49cc0000201c000020270696e67";
static const char own[] = "45000020123400004011e495c0000201c0000202a1670007000cfb9270696e67";
static const char three[] = "4500002c216000004011d55dc0000201c0000202000102030405060708090a0b0c0d0e0f1011121314151617";
static const char three0[] = "4500001c216020004011b56dc0000201c00002020001020304050607";
static const char three1[] = "4500001c216020014011b56cc0000201c000020208090a0b0c0d0e0f";
static const char three2[] = "4500001c216000024011d56bc0000201c00002021011121314151617";
static const char tail[] = "45000028216000004011d561c0000201c0000202000102030405060708090a0b0c0d0e0f10111213";
static const char tail0[] = "4500001c216020004011b56dc0000201c00002020001020304050607";
static const char tail1[] = "45000020216000014011d568c0000201c000020208090a0b0c0d0e0f10111213";
static const char opt[] =
    "4a000040216000004011497cc0000201c000020207070400000000830704c6336407440405000100000102030405060708090a0b0c0d0e0f"
    "1011121314151617";
static const char opt0[] =
    "4a0000382160200040112984c0000201c000020207070400000000830704c6336407440405000100000102030405060708090a0b0c0d0e0f";
static const char opt1[] =
    "4a0000302160000240119790c0000201c000020201010101010101830704c63364070101010101001011121314151617";
static const char bad[] =
    "47000034216000004011c440c0000201c00002020703040701070304000102030405060708090a0b0c0d0e0f1011121314151617";
static const char bad0[] = "4700002c216020004011a448c0000201c00002020703040701070304000102030405060708090a0b0c0d0e0f";
static const char bad1[] = "47000024216000024011cd50c0000201c000020201010107010703041011121314151617";
static const char past[] =
    "47000034216000004011c247c0000201c00002020703040706040000000102030405060708090a0b0c0d0e0f1011121314151617";
static const char past0[] = "4700002c216020004011a24fc0000201c00002020703040706040000000102030405060708090a0b0c0d0e0f";
static const char past1[] = "47000024216000024011cb57c0000201c000020201010107060400001011121314151617";
static const char frag[] = "4500002c216020054011b558c0000201c0000202000102030405060708090a0b0c0d0e0f1011121314151617";
static const char frag0[] = "45000024216020054011b560c0000201c0000202000102030405060708090a0b0c0d0e0f";
static const char frag1[] = "4500001c216020074011b566c0000201c00002021011121314151617";
static const char marks[] = "45b9002c21608000401154a4c0000201c0000202000102030405060708090a0b0c0d0e0f1011121314151617";
static const char marks0[] = "45b900242160a000401134acc0000201c0000202000102030405060708090a0b0c0d0e0f";
static const char marks1[] = "45b9001c21608002401154b2c0000201c00002021011121314151617";
static const char near[] = "4500002421601ffd4011b568c0000201c0000202000102030405060708090a0b0c0d0e0f";
static const char near0[] = "4500001c21603ffd40119570c0000201c00002020001020304050607";
static const char near1[] = "4500001c21601ffe4011b56fc0000201c000020208090a0b0c0d0e0f";
static const char empty[] = "45000014216000004011d575c0000201c0000202";
static const char far[] = "4500002c21603ffd40119560c0000201c0000202000102030405060708090a0b0c0d0e0f1011121314151617";
static const char padded[] = "45000020216000004011d569c0000201c0000202a1670007000cfb9270696e670000";

/* Over IPv6. */
static const char marks6[] =
    "6b9123450018114020010db800000000000000000000000120010db8000000000000000000000002a16700070018ca9a0001020304050607"
    "08090a0b0c0d0e0f";
static const char marks60[] =
    "6b91234500102c4020010db800000000000000000000000120010db80000000000000000000000021100000189abcdefa16700070018ca9a";
static const char marks61[] =
    "6b91234500102c4020010db800000000000000000000000120010db80000000000000000000000021100000989abcdef0001020304050607";
static const char marks62[] =
    "6b91234500102c4020010db800000000000000000000000120010db80000000000000000000000021100001089abcdef08090a0b0c0d0e0f";
static const char tail6[] =
    "60000000001b114020010db800000000000000000000000120010db8000000000000000000000002a1670007001ba8830001020304050607"
    "08090a0b0c0d0e0f101112";
static const char tail60[] =
    "6000000000102c4020010db800000000000000000000000120010db80000000000000000000000021100000100000001a1670007001ba883";
static const char tail61[] =
    "6000000000102c4020010db800000000000000000000000120010db800000000000000000000000211000009000000010001020304050607";
static const char tail62[] =
    "6000000000132c4020010db800000000000000000000000120010db8000000000000000000000002110000100000000108090a0b0c0d0e0f"
    "101112";
static const char hop6[] =
    "600000000018004020010db800000000000000000000000120010db80000000000000000000000023a000502000001008000243d00010002"
    "0000000000000000";
static const char route6[] =
    "6000000000202b4020010db800000000000000000000000120010db8000000000000000000000002110200000000000020010db800000000"
    "0000000000000003000100020008a466";
static const char dest6[] =
    "6000000000183c4020010db800000000000000000000000120010db80000000000000000000000021100010400000000000100020010a456"
    "0000000000000000";
static const char esp6[] =
    "600000000018324020010db800000000000000000000000120010db8000000000000000000000002000102030405060708090a0b0c0d0e0f"
    "1011121314151617";
static const char esp60[] =
    "6000000000102c4020010db800000000000000000000000120010db800000000000000000000000232000001ffffffff0001020304050607";
static const char esp61[] =
    "6000000000102c4020010db800000000000000000000000120010db800000000000000000000000232000009ffffffff08090a0b0c0d0e0f";
static const char esp62[] =
    "6000000000102c4020010db800000000000000000000000120010db800000000000000000000000232000010ffffffff1011121314151617";
static const char empty6[] = "6000000000003b4020010db800000000000000000000000120010db8000000000000000000000002";
static const char padded6[] =
    "600000000018324020010db800000000000000000000000120010db8000000000000000000000002000102030405060708090a0b0c0d0e0f"
    "10111213141516170000";

static const struct row {
    const char *packet;
    size_t mtu;
    int64_t ident;
    ptrdiff_t failure;
    const char *fragments[3];
} rows[] = {
    {plain, 28, LK_FORWARDED, 0, {plain0, plain1}},
    {df, 28, 0x1234, 0, {own0, own1}},
    {df, 32, 0x1234, 0, {own}},
    {df, 32, LK_FORWARDED, 0, {df}},
    {df, 31, LK_FORWARDED, LK_DONT_FRAGMENT, {0}},
    {tail, 33, LK_FORWARDED, 0, {tail0, tail1}}, /* the last fragment is longer than the first */
    {three, 35, LK_FORWARDED, 0, {three0, three1, three2}}, /* 7 bytes more than 8 */
    {opt, 56, LK_FORWARDED, 0, {opt0, opt1}}, /* each has the source route */
    {bad, 44, LK_FORWARDED, 0, {bad0, bad1}}, /* an option of 1 byte */
    {past, 44, LK_FORWARDED, 0, {past0, past1}}, /* an option that ends after the header */
    {frag, 36, LK_FORWARDED, 0, {frag0, frag1}}, /* a fragment, not the last */
    {marks, 36, LK_FORWARDED, 0, {marks0, marks1}}, /* DSCP, ECN and the reserved flag */
    {near, 28, LK_FORWARDED, 0, {near0, near1}}, /* up to byte 65,528 */
    {empty, 20, LK_FORWARDED, 0, {empty}},
    {far, 36, LK_FORWARDED, LK_PAYLOAD_TOO_LONG, {0}},
    {far, 44, LK_FORWARDED, LK_PAYLOAD_TOO_LONG, {0}},
    {plain, 27, LK_FORWARDED, LK_BAD_FIELD, {0}},
    {plain, 32, 65536, LK_BAD_FIELD, {0}},
    {plain, 32, -2, LK_BAD_FIELD, {0}},
    {plain, 32, 4294967296, LK_BAD_FIELD, {0}},
    {frag, 100, 1, LK_NO_HEADER, {0}}, /* a fragment of one's own */
    {frag, 27, 1, LK_BAD_FIELD, {0}}, /* the first row of the header's table that is true */
    {far, 36, 1, LK_PAYLOAD_TOO_LONG, {0}},
    {df, 27, LK_FORWARDED, LK_BAD_FIELD, {0}},
    {marks6, 56, 0x89abcdef, 0, {marks60, marks61, marks62}}, /* traffic class and flow label */
    {marks6, 63, 0x89abcdef, 0, {marks60, marks61, marks62}}, /* it would fit without the fragment header */
    {marks6, 64, 0x89abcdef, 0, {marks6}}, /* no atomic fragment (RFC 8021) */
    {marks6, 64, LK_FORWARDED, 0, {marks6}},
    {marks6, 63, LK_FORWARDED, LK_DONT_FRAGMENT, {0}}, /* routers do not cut IPv6 */
    {tail6, 62, 1, 0, {tail60, tail61, tail62}}, /* the last fragment is longer than the others */
    {esp6, 63, 0xffffffff, 0, {esp60, esp61, esp62}},
    {empty6, 40, 1, 0, {empty6}},
    {marks60, 56, LK_FORWARDED, 0, {marks60}}, /* a fragment */
    {marks60, 56, 1, 0, {marks60}},
    {marks60, 55, 1, LK_BAD_FIELD, {0}},
    {tail62, 58, LK_FORWARDED, LK_DONT_FRAGMENT, {0}},
    {tail62, 58, 1, LK_NO_HEADER, {0}},
    {hop6, 64, 1, 0, {hop6}}, /* extension headers */
    {hop6, 63, 1, LK_NO_HEADER, {0}},
    {route6, 71, 1, LK_NO_HEADER, {0}},
    {dest6, 63, 1, LK_NO_HEADER, {0}},
    {dest6, 55, 1, LK_BAD_FIELD, {0}},
    {dest6, 63, LK_FORWARDED, LK_DONT_FRAGMENT, {0}},
    {esp6, 55, 1, LK_BAD_FIELD, {0}},
    {esp6, 55, LK_FORWARDED, LK_BAD_FIELD, {0}},
    {esp6, 63, 4294967296, LK_BAD_FIELD, {0}},
    {esp6, 64, -2, LK_BAD_FIELD, {0}},
};

static struct octets frame_of(const char *packet)
{
    char hex[2 * ROOM];
    snprintf(hex, sizeof hex, "020000000002020000000001%s%s", packet[0] == '6' ? "86dd" : "0800", packet);
    return octets(hex);
}

/* The fragments, in their order. None comes after the last. */
static void fragments_of(size_t row, const struct octets *frame)
{
    const struct row *one = &rows[row];
    size_t n = 0;
    for (; n < 3 && one->fragments[n]; n++) {
        struct octets fragment = frame_of(one->fragments[n]);
        WRITES(fragment, both_fragment(frame->at, frame->len, one->mtu, one->ident, n, out, cap));
    }
    clear();
    CHECK_ROW(row, both_fragment(frame->at, frame->len, one->mtu, one->ident, n, out, ROOM) == 0);
    CHECK_ROW(row, both_fragment(frame->at, frame->len, one->mtu, one->ident, (size_t)-1, out, ROOM) == 0);
    CHECK_ROW(row, both_fragment(frame->at, frame->len, one->mtu, one->ident, n, out, 0) == 0);
    CHECK_ROW(row, holds(&nothing, 0));
}

void worked_fragment(void)
{
    for (size_t i = 0; i < sizeof rows / sizeof *rows; i++) {
        struct octets frame = frame_of(rows[i].packet);
        if (rows[i].failure == 0)
            fragments_of(i, &frame);
        else
            FAILS(rows[i].failure, both_fragment(frame.at, frame.len, rows[i].mtu, rows[i].ident, 0, out, ROOM));
    }
    struct octets frame = frame_of(padded), first = frame_of(plain0); /* padding */
    WRITES(first, both_fragment(frame.at, frame.len, 28, LK_FORWARDED, 0, out, cap));
    frame = changed(frame, 24, 0); /* a wrong header checksum */
    FAILS(LK_NO_HEADER, both_fragment(frame.at, frame.len, 28, LK_FORWARDED, 0, out, ROOM));
    frame = frame_of(padded6); /* padding after a packet that fits, and one that is cut */
    first = frame_of(esp6);
    WRITES(first, both_fragment(frame.at, frame.len, 64, LK_FORWARDED, 0, out, cap));
    first = frame_of(esp62);
    WRITES(first, both_fragment(frame.at, frame.len, 56, 0xffffffff, 2, out, cap));
    FAILS(LK_NO_HEADER, both_fragment(frame.at, 77, 1500, LK_FORWARDED, 0, out, ROOM)); /* cut off */
    frame = changed(frame, 14, 0x50); /* another version */
    FAILS(LK_NO_HEADER, both_fragment(frame.at, frame.len, 1500, LK_FORWARDED, 0, out, ROOM));
    FAILS(LK_NO_HEADER, both_fragment(arp4.at, arp4.len, 1500, 0, 0, out, ROOM));
    FAILS(LK_NO_HEADER, both_fragment(arp4.at, arp4.len, 1500, 4294967295, 0, out, ROOM)); /* without a packet */
    FAILS(LK_BAD_FIELD, both_fragment(arp4.at, arp4.len, 1500, 4294967296, 0, out, ROOM));
    FAILS(LK_BAD_FIELD, both_fragment(arp4.at, 0, 1500, -2, 0, out, ROOM));
}
