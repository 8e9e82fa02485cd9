/* Names are in C, because the proved code hands out no pointer. */
#include "ip_wire.h"

const char *lk_reason_name(int reason)
{
    static const char *const names[LK_REASON_COUNT] = {
        "LK_READ",      "LK_TOO_SHORT", "LK_BAD_VERSION", "LK_BAD_LENGTH", "LK_OTHER_ARP",
        "LK_PORT_ZERO", "LK_BAD_FLAGS", "LK_BAD_OPTIONS", "LK_HEADER_CUT", "LK_UNKNOWN_LINK",
        "LK_HOPS_LEFT", "LK_BAD_ORDER",
    };
    return reason >= 0 && reason < LK_REASON_COUNT ? names[reason] : "no reason";
}

const char *lk_failure_name(ptrdiff_t failure)
{
    static const char *const names[] = {
        "LK_NO_VERSION", "LK_TWO_VERSIONS", "LK_BAD_PREFIX",       "LK_EMIT_PORT_ZERO",          "LK_NO_HOP_LIMIT", "LK_BAD_FIELD",
        "LK_TWO_CONTROLS", "LK_OPTIONS_TOO_LONG", "LK_PAYLOAD_TOO_LONG", "LK_NO_HEADER", "LK_NO_ROOM",
        "LK_DONT_FRAGMENT", "LK_DROPPED",
    };
    const int count = sizeof names / sizeof names[0];
    for (int i = 0; i < count; i++)
        if (failure == LK_FAILURE(i + 1))
            return names[i];
    return "no failure";
}

const char *lk_rejection_name(int rejection)
{
    static const char *const names[LK_REJECTION_COUNT] = {
        "LK_NOT_REJECTED",  "LK_NO_IPV4",   "LK_NOT_IP",       "LK_BAD_HEADER", "LK_WRONG_CHECKSUM",
        "LK_HOP_LIMIT_TOO_LOW",       "LK_FRAGMENT",  "LK_OTHER_PROTOCOL", "LK_BAD_TRANSPORT", "LK_NAT_PORT_ZERO",
        "LK_NO_MAPPING",    "LK_NO_FREE_PORT", "LK_MARTIAN",   "LK_NO_ROUTE_TO_SOURCE",   "LK_OTHER_INTERFACE",
    };
    return rejection >= 0 && rejection < LK_REJECTION_COUNT ? names[rejection] : "no rejection";
}

/* The keywords of the IANA registry of protocol numbers. */
const char *lk_protocol_name(int protocol)
{
    switch (protocol) {
    case 0: return "HOPOPT";
    case 1: return "ICMP";
    case 2: return "IGMP";
    case 4: return "IPv4";
    case 6: return "TCP";
    case 8: return "EGP";
    case 17: return "UDP";
    case 33: return "DCCP";
    case 41: return "IPv6";
    case 43: return "IPv6-Route";
    case 44: return "IPv6-Frag";
    case 46: return "RSVP";
    case 47: return "GRE";
    case 50: return "ESP";
    case 51: return "AH";
    case 58: return "IPv6-ICMP";
    case 59: return "IPv6-NoNxt";
    case 60: return "IPv6-Opts";
    case 88: return "EIGRP";
    case 89: return "OSPFIGP";
    case 103: return "PIM";
    case 112: return "VRRP";
    case 115: return "L2TP";
    case 132: return "SCTP";
    case 136: return "UDPLite";
    case 137: return "MPLS-in-IP";
    default: return "unknown";
    }
}

const char *lk_ethertype_name(int type)
{
    switch (type) {
    case 0x0800: return "IPv4";
    case 0x0806: return "ARP";
    case 0x0842: return "Wake-on-LAN";
    case 0x8035: return "RARP";
    case 0x8100: return "802.1Q";
    case 0x86dd: return "IPv6";
    case 0x8809: return "slow protocols";
    case 0x8847: return "MPLS";
    case 0x8848: return "MPLS multicast";
    case 0x8863: return "PPPoE discovery";
    case 0x8864: return "PPPoE session";
    case 0x888e: return "EAPOL";
    case 0x88a8: return "802.1ad";
    case 0x88cc: return "LLDP";
    case 0x88e5: return "MACsec";
    case 0x88f7: return "PTP";
    case 0x9100: return "QinQ";
    default: return "unknown";
    }
}

const char *lk_tcp_flag_name(int flag)
{
    switch (flag) {
    case LK_FIN: return "FIN";
    case LK_SYN: return "SYN";
    case LK_RST: return "RST";
    case LK_PSH: return "PSH";
    case LK_ACK: return "ACK";
    case LK_URG: return "URG";
    case LK_ECE: return "ECE";
    case LK_CWR: return "CWR";
    default: return "unknown";
    }
}
