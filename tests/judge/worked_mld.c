/* Worked calls of multicast listener discovery. Linux sent the frames. */
#include "worked.h"

static void report_groups(void)
{
    struct lk_frame headers;
    memset(&headers, OLD, sizeof headers);
    memcpy(headers.ethernet.src, "\2\0\0\0\0\1", 6);
    headers.src.addr = addr("fe80::ff:fe00:1");
    headers.dst.addr = addr("ff02::1:ff00:2");
    WRITES(mld_report, both_emit_mld_report(&headers, out, cap));
    headers.src.addr = addr("::");
    headers.dst.addr = addr("ff02::1:ff00:1");
    WRITES(mld_report_of_none, both_emit_mld_report(&headers, out, cap));
    headers.src.addr = addr("192.0.2.1");
    FAILS(LK_NO_VERSION, both_emit_mld_report(&headers, out, ROOM));
}

/* -1: there is no query. */
static int delay_of(struct octets frame, const char *group)
{
    const struct lk_addr asked = addr(group);
    struct lk_mld_query query = {OLD};
    return both_find_mld_query(frame.at, frame.len, &asked, &query) ? (int)query.max_delay : -1;
}

static void hear_queries(void)
{
    CHECK(delay_of(mld_query, "ff02::1:ff00:7") == 500 && delay_of(mld_query, "ff02::fb") == 500);
    CHECK(delay_of(mld_query2, "ff02::1:ff00:7") == 500);
    CHECK(delay_of(mld_query_of_group, "ff02::1:ff00:7") == 1000 && delay_of(mld_query_of_group, "ff02::1:ff00:8") == -1);
    CHECK(delay_of(mld_query2_of_group, "ff02::1:ff00:2") == 1000 && delay_of(mld_query2_of_group, "ff02::1:ff00:7") == -1);
    CHECK(delay_of(mld_query, "192.0.2.1") == -1);
    CHECK(delay_of(mld_report, "ff02::1:ff00:2") == -1);  /* another type */
    CHECK(delay_of(changed(mld_query, 85, 1), "ff02::1") == -1); /* a wrong checksum */
    for (int hop_limit = 0; hop_limit < 256; hop_limit++) /* RFC 3810, section 6.2 */
        CHECK(delay_of(changed(mld_query, 21, (uint8_t)hop_limit), "ff02::1") == (hop_limit == 1 ? 500 : -1));
}

/* Queries whose length or source is another. The checksums are right. */
static void reject_queries(void)
{
    static const struct {
        const struct octets *frame;
        struct change changes[CHANGES];
        int delay;
    } rows[] = {
        /* RFC 2710, section 5: at least 24 bytes; RFC 3810, section 8.1: 24, or at least 28 */
        {&mld_query, {{19, 31}, {65, 0x2c}}, -1},
        {&mld_query2, {{19, 33}, {65, 0x2a}}, -1},
        {&mld_query2, {{19, 34}, {65, 0x28}}, -1},
        {&mld_query2, {{19, 35}, {65, 0x27}}, -1},
        /* RFC 4291, section 2.4: from fe80::/10, as fe80:0:0:1:: and febf::, not from fd80::, fe40:: and fec0:: */
        {&mld_query, {{29, 1}, {65, 0x2a}}, 500},
        {&mld_query, {{23, 0xbf}, {64, 0x7e}, {65, 0xec}}, 500},
        {&mld_query, {{22, 0xfd}, {64, 0x80}}, -1},
        {&mld_query, {{23, 0x40}, {65, 0x6b}}, -1},
        {&mld_query, {{23, 0xc0}, {64, 0x7e}, {65, 0xeb}}, -1},
    };
    for (size_t i = 0; i < sizeof rows / sizeof *rows; i++)
        CHECK_ROW(i, delay_of(cut(rows[i].frame, rows[i].frame->len, rows[i].changes), "ff02::1") == rows[i].delay);
}

void worked_mld(void)
{
    report_groups();
    hear_queries();
    reject_queries();
}
