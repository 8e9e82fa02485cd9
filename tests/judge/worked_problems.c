/* Worked errors of a host about IPv6 extension headers and fragments (RFC 8200, section 4; RFC 4443, section 3.4). */
#include "worked.h"

/* The host that is asked. */
static struct lk_host asked_host(void)
{
    struct lk_host host;
    memset(&host, 0, sizeof host);
    host.ipv4 = addr("192.0.2.2");
    host.ipv6 = addr("2001:db8::2");
    memcpy(host.hardware, "\2\0\0\0\0\2", 6);
    return host;
}

/* A frame with changes, and the error about it; 0: none. */
struct problem {
    const struct octets *frame;
    struct change before[CHANGES];
    const struct octets *answer;
};

static const struct problem headers[] = {
    {&unknown_option6, {{0, 0}}, &option_problem6},
    {&group_option6, {{0, 0}}, &group_problem6},
    {&unicast_option6, {{0, 0}}, &unicast_problem6},
    {&routed6, {{0, 0}}, &routing_problem6},
    {&late_options6, {{0, 0}}, &late_problem6},
    {&sctp6, {{0, 0}}, &sctp_problem6},
    {&long_option6, {{0, 0}}, &length_problem6},
    {&long_option6, {{60, 0x9e}}, &both_problem6},
    /* a frame of a group to the host itself (RFC 6085), and one to another group or another hardware address */
    {&group_option6, {{0, 2}, {1, 0}, {5, 2}}, &group_problem6},
    {&group_option6, {{53, 2}}, 0},
    {&group_option6, {{5, 2}}, 0},
    /* types with the highest bits 00, 01, and 11 to a group */
    {&unknown_option6, {{61, 0x1e}}, &option_reply6},
    {&unknown_option6, {{61, 0x5e}}, 0},
    {&group_option6, {{61, 0xde}}, 0},
    /* no segments left, and a checksum of UDP that is wrong with this destination; the option ends with its header; no next
     * header; the header of a last fragment before the options */
    {&routed6, {{65, 0}}, 0},
    {&long_option6, {{61, 0}}, &option_reply6},
    {&sctp6, {{20, 59}}, 0},
    {&unknown_option6, {{20, 44}, {54, 60}, {57, 2}}, 0},
    /* the option of type 0x1e, and a neighbour solicitation after it */
    {&unknown_option6, {{61, 0x1e}, {70, 135}}, 0},
    /* a header that is longer than the packet */
    {&late_options6, {{55, 3}}, 0},
    /* an ICMPv6 error after the option (RFC 4443, section 2.4 e.1) */
    {&unknown_option6, {{70, 1}}, 0},
    /* from a group, from `::`, from a hardware group, to another host and to another hardware address (e.3 to e.6) */
    {&unknown_option6, {{22, 0xff}}, 0},
    {&unknown_option6, {{22, 0}, {23, 0}, {24, 0}, {25, 0}, {37, 0}}, 0},
    {&unknown_option6, {{6, 3}}, 0},
    {&unknown_option6, {{53, 3}}, 0},
    {&unknown_option6, {{5, 3}}, 0},
};

static const struct problem fragments[] = {
    {&odd_fragment6, {{0, 0}}, &odd_fragment_problem6},
    {&later_odd_fragment6, {{0, 0}}, &later_odd_fragment_problem6},
    {&long_fragment6, {{0, 0}}, &long_fragment_problem6},
    {&cut_tcp6, {{0, 0}}, &cut_tcp_problem6},
    {&cut_options6, {{0, 0}}, &cut_options_problem6},
    /* 8 bytes; 9 bytes in the last fragment; 7 bytes at offset 65,528 */
    {&odd_fragment6, {{19, 16}}, 0},
    {&odd_fragment6, {{57, 8}}, 0},
    {&long_fragment6, {{19, 15}}, 0},
    /* 16 bytes of UDP, of ICMPv6 and of DCCP (33); 16 bytes of TCP at offset 8; whole options before no next header */
    {&cut_tcp6, {{54, 17}}, 0},
    {&cut_tcp6, {{54, 58}}, 0},
    {&cut_tcp6, {{54, 33}}, 0},
    {&cut_tcp6, {{57, 9}}, 0},
    {&cut_options6, {{62, 59}, {63, 0}}, 0},
    /* a first fragment of an ICMPv6 error, and a later one of ICMPv6 (RFC 4443, section 2.4 e.1) */
    {&odd_fragment6, {{54, 58}, {62, 1}}, 0},
    {&later_odd_fragment6, {{54, 58}}, 0},
    /* to all nodes (e.3), from `::`, and to another host */
    {&cut_tcp6, {{38, 0xff}, {39, 2}, {40, 0}, {41, 0}, {53, 1}}, 0},
    {&long_fragment6, {{0, 0x33}, {1, 0x33}, {5, 1}, {38, 0xff}, {39, 2}, {40, 0}, {41, 0}, {53, 1}}, 0},
    {&cut_options6, {{22, 0}, {23, 0}, {24, 0}, {25, 0}, {37, 0}}, 0},
    {&odd_fragment6, {{53, 3}}, 0},
};

static void answers(const struct problem *problems, size_t count)
{
    const struct lk_host host = asked_host();
    for (size_t i = 0; i < count; i++) {
        const struct octets frame = cut(problems[i].frame, problems[i].frame->len, problems[i].before);
        if (problems[i].answer)
            WRITES(*problems[i].answer, both_answer(&host, frame.at, frame.len, out, cap));
        else
            FAILS(0, both_answer(&host, frame.at, frame.len, out, ROOM));
    }
}

static void answers_faulty_headers(void)
{
    struct lk_host without = asked_host();
    answers(headers, sizeof headers / sizeof *headers);
    without.ipv6 = addr("::");
    FAILS(0, both_answer(&without, group_option6.at, group_option6.len, out, ROOM));
}

static void answers_faulty_fragments(void)
{
    answers(fragments, sizeof fragments / sizeof *fragments);
}

void worked_problems(void)
{
    answers_faulty_headers();
    answers_faulty_fragments();
}
