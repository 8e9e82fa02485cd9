/* Worked calls of reassembly. Scapy packed the packets, cut them and computed their checksums. What contradicts what
 * follows from RFC 791, section 3.2, RFC 3168, section 5.3, RFC 5722, RFC 6946 and RFC 8200, section 4.5. */
#include <stdio.h>
#include "worked.h"

/* The packets of the frames, in hex digits: 32 bytes of UDP over IPv4, in fragments of 16 and 8 bytes. */
static const char plain[] =
    "45000034123400004011e481c0000201c00002020fa000070020e772000102030405060708090a0b0c0d0e0f1011121314151617";
static const char plain0[] = "45000024123420004011c491c0000201c00002020fa000070020e7720001020304050607";
static const char plain1[] = "45000024123400024011e48fc0000201c000020208090a0b0c0d0e0f1011121314151617";
static const char begin8[] = "4500001c123420004011c499c0000201c00002020fa000070020e772";
static const char middle8[] = "4500001c123420014011c498c0000201c00002020001020304050607";
static const char overlap[] = "45000024123420014011c490c0000201c0000202000102030405060708090a0b0c0d0e0f";
static const char odd[] = "45000020123420004011c495c0000201c00002020fa000070020e77200010203";
static const char past_end[] = "4500001c123420044011c495c0000201c00002020000000000000000";
static const char early_end[] = "4500001c123400024011e497c0000201c000020208090a0b0c0d0e0f";
static const char empty[] = "45000014123420024011c49fc0000201c0000202";
static const char changed1[] = "45000024123400024011e48fc0000201c000020209090a0b0c0d0e0f1011121314151617";
static const char other_ident[] = "45000024123500024011e48ec0000201c000020208090a0b0c0d0e0f1011121314151617";
static const char other_protocol[] = "45000024123400024006e49ac0000201c000020208090a0b0c0d0e0f1011121314151617";
static const char other_src[] = "45000024123400024011e48dc0000203c000020208090a0b0c0d0e0f1011121314151617";
static const char other_dst[] = "45000024123400024011e48ec0000201c000020308090a0b0c0d0e0f1011121314151617";
static const char ect1_0[] = "45010024123420004011c490c0000201c00002020fa000070020e7720001020304050607";
static const char ect0_0[] = "45020024123420004011c48fc0000201c00002020fa000070020e7720001020304050607";
static const char ect0_1[] = "45020024123400024011e48dc0000201c000020208090a0b0c0d0e0f1011121314151617";
static const char ce_0[] = "45030024123420004011c48ec0000201c00002020fa000070020e7720001020304050607";
static const char ce_1[] = "45030024123400024011e48cc0000201c000020208090a0b0c0d0e0f1011121314151617";
static const char ect1[] =
    "45010034123400004011e480c0000201c00002020fa000070020e772000102030405060708090a0b0c0d0e0f1011121314151617";
static const char ect0[] =
    "45020034123400004011e47fc0000201c00002020fa000070020e772000102030405060708090a0b0c0d0e0f1011121314151617";
static const char ce[] =
    "45030034123400004011e47ec0000201c00002020fa000070020e772000102030405060708090a0b0c0d0e0f1011121314151617";
static const char second[] =
    "45000034222200004011d493c0000201c00002020fa000070020e772000102030405060708090a0b0c0d0e0f1011121314151617";
static const char second0[] = "45000024222220004011b4a3c0000201c00002020fa000070020e7720001020304050607";
static const char second1[] = "45000024222200024011d4a1c0000201c000020208090a0b0c0d0e0f1011121314151617";
static const char third[] =
    "45000034333300004011c382c0000201c00002020fa000070020e772000102030405060708090a0b0c0d0e0f1011121314151617";
static const char third0[] = "45000024333320004011a392c0000201c00002020fa000070020e7720001020304050607";
static const char third1[] = "45000024333300024011c390c0000201c000020208090a0b0c0d0e0f1011121314151617";
static const char opt[] =
    "4700003c123400004011d771c0000201c000020207070400000000010fa000070020e772000102030405060708090a0b0c0d0e0f101112"
    "1314151617";
static const char opt0[] = "4700002c123420004011b781c0000201c000020207070400000000010fa000070020e7720001020304050607";
static const char df[] =
    "45000034123440004011a481c0000201c00002020fa000070020e772000102030405060708090a0b0c0d0e0f1011121314151617";
static const char df0[] = "450000241234600040118491c0000201c00002020fa000070020e7720001020304050607";
static const char df1[] = "45000024123440024011a48fc0000201c000020208090a0b0c0d0e0f1011121314151617";
static const char marked1[] = "45b800241234000209111ad8c0000201c000020208090a0b0c0d0e0f1011121314151617";
static const char past[] = "4500001c12341fff4011c49ac0000201c00002020001020304050607";
static const char edge[] = "4500001c12341ffd4011c49cc0000201c00002020001020304050607";
static const char far[] = "4500001c123400084011e491c0000201c00002020001020304050607";
static const char near[] = "4500001c123400074011e492c0000201c00002020001020304050607";
static const char six[] =
    "600000000020114020010db800000000000000000000000120010db80000000000000000000000020fa000070020100200010203040506"
    "0708090a0b0c0d0e0f1011121314151617";
static const char six0[] =
    "6000000000182c4020010db800000000000000000000000120010db800000000000000000000000211000001123456780fa00007002010"
    "020001020304050607";
static const char six1[] =
    "6000000000182c4020010db800000000000000000000000120010db8000000000000000000000002110000101234567808090a0b0c0d0e"
    "0f1011121314151617";
static const char six1_tcp[] =
    "6000000000182c4020010db800000000000000000000000120010db8000000000000000000000002060000101234567808090a0b0c0d0e"
    "0f1011121314151617";
static const char six1_other[] =
    "6000000000182c4020010db800000000000000000000000120010db8000000000000000000000002110000100234567808090a0b0c0d0e"
    "0f1011121314151617";
static const char atomic[] =
    "6000000000282c4020010db800000000000000000000000120010db800000000000000000000000211000000123456780fa00007002010"
    "02000102030405060708090a0b0c0d0e0f1011121314151617";
static const char six_ect0[] =
    "6020000000182c4020010db800000000000000000000000120010db800000000000000000000000211000001123456780fa00007002010"
    "020001020304050607";
static const char six_ce1[] =
    "6030000000182c4020010db800000000000000000000000120010db8000000000000000000000002110000101234567808090a0b0c0d0e"
    "0f1011121314151617";
static const char six_ce[] =
    "603000000020114020010db800000000000000000000000120010db80000000000000000000000020fa000070020100200010203040506"
    "0708090a0b0c0d0e0f1011121314151617";
static const char six_odd[] =
    "6000000000142c4020010db800000000000000000000000120010db800000000000000000000000211000001123456780fa00007002010"
    "0200010203";

/* A fragment that comes, or without a packet a call of lk_expire_reassembly. It begins an empty table of so many packets, or the
 * table stays. The result is a failure, a whole packet, or 0. */
static const struct step {
    size_t begins;
    uint64_t now;
    const char *packet;
    ptrdiff_t failure;
    const char *whole;
    size_t since; /* of lk_expire_reassembly: how many steps ago its packet began */
} steps[] = {
    {2, 0, plain0, 0, 0, 0},
    {0, 1, plain1, 0, plain, 0},
    {2, 0, plain1, 0, 0, 0}, /* in the other order */
    {0, 0, plain0, 0, plain, 0},
    {0, 0, plain0, 0, 0, 0}, /* a copy of it begins another packet */
    {2, 0, plain0, 0, 0, 0}, /* copies, and a part of another fragment */
    {0, 0, plain0, 0, 0, 0},
    {0, 0, begin8, 0, 0, 0},
    {0, 0, middle8, 0, 0, 0},
    {0, 0, plain1, 0, plain, 0},
    {2, 0, begin8, 0, 0, 0}, /* a copy of two fragments */
    {0, 0, middle8, 0, 0, 0},
    {0, 0, plain0, 0, 0, 0},
    {0, 0, plain1, 0, plain, 0},
    {2, 0, plain1, 0, 0, 0}, /* three fragments */
    {0, 0, begin8, 0, 0, 0},
    {0, 0, middle8, 0, plain, 0},
    {2, 0, plain, 0, plain, 0}, /* not fragmented */
    {0, 0, df, 0, df, 0},
    {0, 0, opt, 0, opt, 0},
    {2, 0, opt0, 0, 0, 0}, /* options only in the first fragment */
    {0, 0, plain1, 0, opt, 0},
    {2, 0, marked1, 0, 0, 0}, /* TTL and DSCP are those of the first fragment */
    {0, 0, plain0, 0, plain, 0},
    {2, 0, df1, 0, 0, 0}, /* so is DF */
    {0, 0, df0, 0, df, 0},
    {2, 0, plain0, 0, 0, 0}, /* another key */
    {0, 0, other_ident, 0, 0, 0},
    {2, 0, plain0, 0, 0, 0},
    {0, 0, other_protocol, 0, 0, 0},
    {2, 0, plain0, 0, 0, 0},
    {0, 0, other_src, 0, 0, 0},
    {2, 0, plain0, 0, 0, 0},
    {0, 0, other_dst, 0, 0, 0},
    {0, 0, plain1, 0, plain, 0},
    {2, 0, plain0, 0, 0, 0}, /* two packets at a time */
    {0, 0, second1, 0, 0, 0},
    {0, 0, plain1, 0, plain, 0},
    {0, 0, second0, 0, second, 0},
    {2, 0, plain0, 0, 0, 0}, /* equal bytes, but some are new */
    {0, 0, overlap, LK_DROPPED, 0, 0},
    {0, 59999, plain1, LK_DROPPED, 0, 0},
    {0, 60000, plain1, 0, 0, 0},
    {0, 60000, plain0, 0, plain, 0},
    {2, 0, plain1, 0, 0, 0}, /* another byte */
    {0, 0, changed1, LK_DROPPED, 0, 0},
    {0, 0, plain0, LK_DROPPED, 0, 0},
    {0, 0, odd, LK_NO_HEADER, 0, 0}, /* what is no fragment, or too long for the memory, is told first */
    {0, 0, far, LK_PAYLOAD_TOO_LONG, 0, 0},
    {0, 0, plain, 0, plain, 0},
    {0, 60000, 0, 0, 0, 0}, /* no error about it */
    {2, 0, plain1, 0, 0, 0}, /* another end */
    {0, 0, early_end, LK_DROPPED, 0, 0},
    {2, 0, plain1, 0, 0, 0}, /* after the end */
    {0, 0, past_end, LK_DROPPED, 0, 0},
    {2, 0, past_end, 0, 0, 0},
    {0, 0, plain1, LK_DROPPED, 0, 0},
    {2, 0, ect0_0, 0, 0, 0}, /* codepoints: CE and ECT(0) */
    {0, 0, ce_1, 0, ce, 0},
    {2, 0, ce_0, 0, 0, 0},
    {0, 0, ect0_1, 0, ce, 0},
    {2, 0, ce_0, 0, 0, 0},
    {0, 0, ce_1, 0, ce, 0},
    {2, 0, ect1_0, 0, 0, 0}, /* CE and ECT(1) */
    {0, 0, ce_1, 0, ce, 0},
    {2, 0, ect1_0, 0, 0, 0}, /* ECT(1) and ECT(0) */
    {0, 0, ect0_1, 0, ect1, 0},
    {2, 0, ect0_0, 0, 0, 0},
    {0, 0, plain1, 0, ect0, 0}, /* ECT(0) and Not-ECT */
    {2, 0, ce_0, 0, 0, 0}, /* CE and Not-ECT */
    {0, 0, plain1, LK_DROPPED, 0, 0},
    {2, 0, plain0, 0, 0, 0},
    {0, 0, ce_1, LK_DROPPED, 0, 0},
    {2, 1000, plain0, 0, 0, 0}, /* time */
    {0, 60999, 0, 0, 0, 0},
    {0, 60999, plain1, 0, plain, 0},
    {2, 1000, plain0, 0, 0, 0},
    {0, 61000, plain1, 0, 0, 0}, /* it began anew */
    {0, 121000, 0, 0, plain0, 2}, /* the one that expired; without the first fragment there is no error */
    {0, 121000, 0, 0, 0, 0},
    {2, 1000, middle8, 0, 0, 0},
    {0, 2000, begin8, 0, 0, 0},
    {0, 3000, second0, 0, 0, 0},
    {0, 60999, 0, 0, 0, 0},
    {0, 63000, 0, 0, begin8, 4},
    {0, 63000, 0, 0, second0, 3},
    {0, 63000, 0, 0, 0, 0},
    {2, 1000, second0, 0, 0, 0}, /* a third packet takes the place of that which expires first */
    {0, 2000, plain0, 0, 0, 0},
    {0, 3000, third0, 0, 0, 0},
    {0, 3000, third1, 0, third, 0},
    {0, 3000, plain1, 0, plain, 0},
    {0, 3000, second1, 0, 0, 0},
    {2, 1000, plain0, 0, 0, 0}, /* or of one that has expired */
    {0, 50000, second0, 0, 0, 0},
    {0, 61000, third0, 0, 0, 0},
    {0, 61000, second1, 0, second, 0},
    {0, 61000, third1, 0, third, 0},
    {2, 1000, plain0, 0, 0, 0}, /* but it stays for lk_expire_reassembly while another place is free */
    {0, 61000, second0, 0, 0, 0},
    {0, 61000, third0, 0, 0, 0}, /* it makes room, and not the packet that came later */
    {0, 61000, 0, 0, 0, 0},
    {2, 1000, plain0, 0, 0, 0},
    {0, 61000, second0, 0, 0, 0},
    {0, 61000, 0, 0, plain0, 2},
    {0, 61000, third0, 0, 0, 0},
    {0, 61000, second1, 0, second, 0},
    {0, 61000, third1, 0, third, 0},
    {2, 0, near, 0, 0, 0}, /* the memory has room for 64 bytes */
    {0, 0, far, LK_PAYLOAD_TOO_LONG, 0, 0},
    {2, 0, empty, LK_NO_HEADER, 0, 0},
    {0, 0, odd, LK_NO_HEADER, 0, 0},
    {0, 0, six_odd, LK_NO_HEADER, 0, 0},
    {2, 0, six0, 0, 0, 0}, /* IPv6 */
    {0, 0, six1, 0, six, 0},
    {2, 0, six1_tcp, 0, 0, 0}, /* the next header of a later fragment does not count */
    {0, 0, six0, 0, six, 0},
    {2, 0, six1_other, 0, 0, 0}, /* the identification has 32 bits */
    {0, 0, six0, 0, 0, 0},
    {0, 0, six1, 0, six, 0},
    {2, 0, six_ect0, 0, 0, 0},
    {0, 0, six_ce1, 0, six_ce, 0},
    {2, 0, six0, 0, 0, 0},
    {0, 0, six_ce1, LK_DROPPED, 0, 0},
    {2, 0, six0, 0, 0, 0},
    {0, 60000, 0, 0, six0, 1},
    {2, 0, six0, 0, 0, 0}, /* an atomic fragment of the same key (RFC 6946) */
    {0, 0, atomic, 0, six, 0},
    {0, 0, six1, 0, six, 0},
    {0, 0, six, LK_NO_HEADER, 0, 0}, /* without a fragment header */
};

/* Room for 64 bytes of each packet. */
enum { MOST = 2, PER_PACKET = 72 };
static struct lk_reassembly partials[MOST];
static uint8_t memory[MOST * PER_PACKET];

static void begin_table(void)
{
    forget_partials();
    memset(partials, 0, sizeof partials);
    memset(memory, OLD, sizeof memory);
}

/* The frame with a packet. Its Ethernet addresses are those of a step. */
static struct octets frame_of(const char *packet, size_t step)
{
    char hex[2 * ROOM];
    snprintf(hex, sizeof hex, "0200000000020200000000%02x%s%s", (unsigned)step & 0xff, *packet == '6' ? "86dd" : "0800",
             packet);
    return octets(hex);
}

static ptrdiff_t take(const struct octets *frame, uint64_t now, size_t cap)
{
    clear();
    return both_reassemble(partials, MOST, memory, sizeof memory, now, frame->at, frame->len, out, cap);
}

/* A whole packet is not written without room for it, and then it stays. */
static void make_step(size_t i)
{
    const struct step *step = &steps[i];
    struct octets frame = frame_of(step->packet ? step->packet : "", i);
    struct octets wanted = step->whole ? frame_of(step->whole, i - step->since) : nothing;
    if (step->begins)
        begin_table();
    if (step->packet == 0) {
        clear();
        CHECK_ROW(i, holds(&wanted, (ptrdiff_t)both_expire_reassembly(partials, MOST, memory, sizeof memory, step->now, out, ROOM)));
    } else if (step->whole) {
        CHECK_ROW(i, take(&frame, step->now, wanted.len - 1) == LK_NO_ROOM && holds(&nothing, 0));
        CHECK_ROW(i, holds(&wanted, take(&frame, step->now, wanted.len)));
    } else {
        CHECK_ROW(i, take(&frame, step->now, ROOM) == step->failure && holds(&nothing, 0));
    }
}

/* Packets of more than 65,535 bytes. */
static void make_long(void)
{
    static struct lk_reassembly one;
    static uint8_t room[LK_REASSEMBLY_MEMORY];
    const struct {
        const char *packet;
        ptrdiff_t result;
    } rows[] = {
        {past, LK_DROPPED}, /* up to byte 65,536 of the payload */
        {edge, 0},          /* up to byte 65,520: too long for any header */
        {begin8, LK_DROPPED},
        {edge, LK_DROPPED},
    };
    for (size_t i = 0; i < sizeof rows / sizeof *rows; i++) {
        struct octets frame = frame_of(rows[i].packet, i);
        if (i < 2) {
            forget_partials();
            memset(&one, 0, sizeof one);
        }
        clear();
        CHECK_ROW(i, both_reassemble(&one, 1, room, sizeof room, 0, frame.at, frame.len, out, ROOM) == rows[i].result);
    }
}

void worked_reassembly(void)
{
    for (size_t i = 0; i < sizeof steps / sizeof *steps; i++)
        make_step(i);
    make_long();
    begin_table();
    struct octets frame = frame_of(plain0, 0), whole = frame_of(plain, 0);
    FAILS(LK_PAYLOAD_TOO_LONG, both_reassemble(partials, 0, memory, sizeof memory, 0, frame.at, frame.len, out, ROOM));
    FAILS(LK_PAYLOAD_TOO_LONG, both_reassemble(partials, MOST, memory, 35, 0, frame.at, frame.len, out, ROOM));
    CHECK(both_expire_reassembly(partials, 0, memory, sizeof memory, 60000, out, ROOM) == 0);
    WRITES(whole, both_reassemble(partials, 0, memory, 0, 0, whole.at, whole.len, out, cap));
    frame = changed(frame, 24, 0); /* a wrong header checksum */
    FAILS(LK_NO_HEADER, both_reassemble(partials, MOST, memory, sizeof memory, 0, frame.at, frame.len, out, ROOM));
    FAILS(LK_NO_HEADER, both_reassemble(partials, 0, memory, sizeof memory, 0, frame.at, frame.len, out, ROOM));
    frame = frame_of(odd, 0);
    FAILS(LK_NO_HEADER, both_reassemble(partials, 0, memory, sizeof memory, 0, frame.at, frame.len, out, ROOM));
    FAILS(LK_NO_HEADER, both_reassemble(partials, MOST, memory, sizeof memory, 0, arp4.at, arp4.len, out, ROOM));
    FAILS(LK_NO_HEADER, both_reassemble(partials, MOST, memory, sizeof memory, 0, ping6.at, ping6.len, out, ROOM));
}
