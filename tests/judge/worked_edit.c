/* Worked calls of the edits in place. Scapy packed the edited frames, but for the checksums of fragments, of wrong ones and
 * of those that are left to the device, which are the sums of RFC 1624 and RFC 768. */
#include "worked.h"

enum { HOP_LIMIT, DSCP, ADDR, PORT, BYTES, FILL };

/* `before`: changes of the frame. `text`: an address, or the bytes. `after`: what the call changes then; none: it
 * returns 0. */
struct edit {
    const struct octets *frame;
    struct change before[CHANGES];
    int field;
    size_t number; /* the side of an address or port, the offset of bytes */
    const char *text;
    unsigned value;
    struct change after[CHANGES];
};

/* The field has the sum of the pseudo-header: of a segment that is valid as it is, and of one that is not. */
#define LOOKS_VALID {{48, 0x4f}, {49, 0x7c}, {50, 0x84}, {51, 0x32}}
#define LOOKS_LEFT {{50, 0x84}, {51, 0x32}}
#define NEW_ADDR {24, 0xfa}, {25, 0xc3}, {30, 0xc6}, {31, 0x33}, {32, 0x64}, {33, 0x07}
#define NEW_SOURCE {24, 0xe8}, {25, 0xf5}, {26, 0xcb}, {28, 0x71}, {29, 0x07}
#define NEW_DESTINATION6 {38, 0x20}, {39, 0x01}, {40, 0x0d}, {41, 0xb8}, {53, 0x07}

static const struct edit edited[] = {
    {&ping, {{0, 0}}, HOP_LIMIT, 0, 0, 1, {{22, 0x01}, {24, 0xd4}}},
    {&syn, {{0, 0}}, HOP_LIMIT, 0, 0, 255, {{22, 0xff}, {24, 0xa3}, {25, 0xfb}}},
    {&ping6, {{0, 0}}, HOP_LIMIT, 0, 0, 0, {{21, 0x00}}},
    {&echo_request, {{0, 0}}, HOP_LIMIT, 0, 0, 63, {{22, 0x3f}, {24, 0xa5}}},
    {&ping, {{25, 0x96}}, HOP_LIMIT, 0, 0, 1, {{22, 0x01}, {24, 0xd4}}}, /* a wrong checksum stays wrong */
    {&ping, {{12, 0x81}}, HOP_LIMIT, 0, 0, 1, {{0, 0}}},                 /* VLAN tags */
    {&ping, {{14, 0x65}}, HOP_LIMIT, 0, 0, 1, {{0, 0}}},
    {&arp4, {{0, 0}}, HOP_LIMIT, 0, 0, 1, {{0, 0}}},
    {&ping, {{0, 0}}, DSCP, 0, 0, 46, {{15, 0xb8}, {24, 0x94}, {25, 0xb1}}},
    {&syn, {{0, 0}}, DSCP, 0, 0, 63, {{15, 0xfc}, {25, 0x00}}},
    {&ping6, {{0, 0}}, DSCP, 0, 0, 46, {{14, 0x6b}, {15, 0x80}}},
    {&udp4_left_to_device, {{0, 0}}, DSCP, 0, 0, 0, {{15, 0x01}, {25, 0xdb}}},
    {&ping, {{0, 0}}, DSCP, 0, 0, 64, {{0, 0}}},
    {&ping, {{0, 0}}, ADDR, 0, "203.0.113.9", 0,
     {{24, 0x1b}, {25, 0x61}, {26, 0xcb}, {28, 0x71}, {29, 0x09}, {40, 0x81}, {41, 0x8a}}},
    {&syn, {{0, 0}}, ADDR, 1, "198.51.100.7", 0,
     {{24, 0xfa}, {25, 0xc3}, {30, 0xc6}, {31, 0x33}, {32, 0x64}, {33, 0x07}, {50, 0x70}, {51, 0x85}}},
    {&ping6, {{0, 0}}, ADDR, 0, "2001:db8::9", 0, {{37, 0x09}, {61, 0x1a}}},
    {&syn6, {{0, 0}}, ADDR, 2, "2001:db8:1::7", 0, {{43, 0x01}, {53, 0x07}, {71, 0x5b}}},
    {&echo_request, {{0, 0}}, ADDR, 0, "203.0.113.9", 0, {{24, 0x2a}, {25, 0x9c}, {26, 0xcb}, {28, 0x71}, {29, 0x09}}},
    {&echo_request6, {{0, 0}}, ADDR, 1, "2001:db8:1::7", 0, {{43, 0x01}, {53, 0x07}, {57, 0x81}}},
    {&tcp4_left_to_device, {{0, 0}}, ADDR, 1, "198.51.100.7", 0,
     {{24, 0x7b}, {25, 0x3f}, {30, 0xc6}, {31, 0x33}, {32, 0x64}, {33, 0x07}, {50, 0x60}, {51, 0x90}}},
    {&udp4_left_to_device, {{0, 0}}, ADDR, 0, "203.0.113.9", 0,
     {{24, 0x49}, {25, 0x51}, {26, 0xcb}, {27, 0x00}, {28, 0x71}, {29, 0x09}, {40, 0x92}, {41, 0x7e}}},
    {&ping, {{0, 0}}, ADDR, 0, "2001:db8::9", 0, {{0, 0}}},
    {&ping6, {{0, 0}}, ADDR, 0, "203.0.113.9", 0, {{0, 0}}},
    {&syn_ack_of_1440, {{20, 0}}, ADDR, 1, "2001:db8:1::7", 0, {{0, 0}}}, /* an extension header */
    {&syn, {{23, 51}}, ADDR, 1, "198.51.100.7", 0, {{0, 0}}},            /* an authentication header */
    {&ping, {{23, 33}}, ADDR, 0, "203.0.113.9", 0, {{0, 0}}},            /* DCCP */
    {&ping, {{23, 89}}, ADDR, 0, "203.0.113.9", 0, {{0, 0}}},            /* OSPF */
    {&ping, {{23, 112}}, ADDR, 0, "203.0.113.9", 0, {{0, 0}}},           /* VRRP */
    {&ping, {{23, 136}}, ADDR, 0, "203.0.113.9", 0, {{0, 0}}},           /* UDP-Lite */
    {&ping, {{23, 139}}, ADDR, 0, "203.0.113.9", 0, {{0, 0}}},           /* HIP */
    {&ping6, {{20, 33}}, ADDR, 0, "2001:db8::9", 0, {{0, 0}}},
    {&ping6, {{20, 89}}, ADDR, 0, "2001:db8::9", 0, {{0, 0}}},
    {&ping6, {{20, 103}}, ADDR, 0, "2001:db8::9", 0, {{0, 0}}}, /* PIM */
    {&ping6, {{20, 112}}, ADDR, 0, "2001:db8::9", 0, {{0, 0}}},
    {&ping6, {{20, 135}}, ADDR, 0, "2001:db8::9", 0, {{0, 0}}}, /* Mobility */
    {&ping6, {{20, 136}}, ADDR, 0, "2001:db8::9", 0, {{0, 0}}},
    {&ping6, {{20, 139}}, ADDR, 0, "2001:db8::9", 0, {{0, 0}}},
    {&ping, {{23, 103}}, ADDR, 0, "203.0.113.9", 0,
     {{24, 0x1b}, {25, 0x61}, {26, 0xcb}, {28, 0x71}, {29, 0x09}}}, /* PIM over IPv4 sums no address */
    {&ping6, {{20, 132}}, ADDR, 0, "2001:db8::9", 0, {{37, 0x09}}}, /* nor does SCTP */
    {&ping, {{39, 0x07}}, ADDR, 0, "203.0.113.9", 0, {{0, 0}}},     /* a UDP length of 7 */
    {&ping, {{0, 0}}, PORT, 0, 0, 5353, {{34, 0x14}, {35, 0xe9}, {40, 0x88}, {41, 0x11}}},
    {&syn, {{0, 0}}, PORT, 1, 0, 8080, {{36, 0x1f}, {37, 0x90}, {50, 0xb9}, {51, 0x7d}}},
    {&ping6, {{0, 0}}, PORT, 1, 0, 7777, {{56, 0x1e}, {57, 0x61}, {60, 0x05}, {61, 0xc8}}},
    {&syn6, {{0, 0}}, PORT, 0, 0, 0, {{54, 0x00}, {55, 0x00}, {70, 0xee}, {71, 0xd1}}},
    {&ping, {{41, 0xfc}}, PORT, 1, 0, 9, {{37, 0x09}, {41, 0xfa}}}, /* a wrong checksum stays wrong */
    {&udp4_left_out, {{0, 0}}, PORT, 1, 0, 53, {{36, 0x00}, {37, 0x35}}},
    {&tcp4_left_to_device, {{0, 0}}, PORT, 1, 0, 80, {{36, 0x00}, {37, 0x50}}},
    {&fragment4_first, {{0, 0}}, PORT, 1, 0, 53, {{36, 0x00}, {37, 0x35}, {40, 0x5c}, {41, 0xed}}},
    {&fragment4_middle, {{0, 0}}, PORT, 1, 0, 53, {{0, 0}}},
    {&echo_request, {{0, 0}}, PORT, 1, 0, 53, {{0, 0}}},
    {&ping, {{0, 0}}, BYTES, 42, "706f6e67", 0, {{41, 0x8c}, {43, 0x6f}}},
    {&syn, {{0, 0}}, BYTES, 56, "04ec", 0, {{50, 0xd9}, {51, 0x85}, {56, 0x04}, {57, 0xec}}},
    {&syn_ack_of_1440, {{0, 0}}, BYTES, 77, "04c4", 0, {{70, 0x1a}, {71, 0xa3}, {77, 0x04}, {78, 0xc4}}},
    {&ping6, {{0, 0}}, BYTES, 15, "012345", 0, {{15, 0x01}, {16, 0x23}, {17, 0x45}}},
    {&ping, {{0, 0}}, BYTES, 26, "cb007109", 0,
     {{24, 0x1b}, {25, 0x61}, {26, 0xcb}, {28, 0x71}, {29, 0x09}, {40, 0x81}, {41, 0x8a}}},
    {&tcp4, {{0, 0}}, BYTES, 61, "0102", 0, {{61, 0x01}, {62, 0x02}}}, /* padding */
    {&ping, {{0, 0}}, BYTES, 43, "69", 0, {{43, 0x69}}},
    {&ping, {{0, 0}}, BYTES, 43, "69696969", 0, {{0, 0}}},
    {&ping6, {{20, 136}}, BYTES, 62, "f1", 0, {{0, 0}}}, /* UDP-Lite */
    {&ping, {{0, 0}}, BYTES, 13, "00", 0, {{0, 0}}},
    {&ping, {{0, 0}}, BYTES, 17, "20", 0, {{0, 0}}},
    {&ping, {{0, 0}}, BYTES, 23, "11", 0, {{0, 0}}},
    {&ping, {{0, 0}}, BYTES, 24, "95", 0, {{0, 0}}},
    {&ping, {{0, 0}}, BYTES, 39, "0c", 0, {{0, 0}}},
    {&syn, {{0, 0}}, BYTES, 46, "a0", 0, {{0, 0}}},
    {&syn, {{0, 0}}, BYTES, 51, "bd", 0, {{0, 0}}},
    {&ping6, {{0, 0}}, BYTES, 20, "11", 0, {{0, 0}}},
    {&echo_request, {{0, 0}}, BYTES, 37, "44", 0, {{0, 0}}},
    {&fragment6_middle, {{0, 0}}, BYTES, 62, "f1", 0, {{0, 0}}},
    {&tcp4_left_to_device, {{0, 0}}, FILL, 0, 0, 0, {{50, 0x96}, {51, 0x9e}}},
    {&udp4_left_to_device, {{0, 0}}, FILL, 0, 0, 0, {{40, 0x1b}, {41, 0xe0}}},
    {&udp6_left_to_device, {{0, 0}}, FILL, 0, 0, 0, {{60, 0xb5}, {61, 0x6d}}},
    {&udp4_left_out, {{0, 0}}, FILL, 0, 0, 0, {{40, 0x1b}, {41, 0xe0}}},
    {&tcp4_wrong, {{0, 0}}, FILL, 0, 0, 0, {{50, 0x96}}},
    {&echo_request, {{36, 0x00}, {37, 0x00}}, FILL, 0, 0, 0, {{36, 0x42}, {37, 0x44}}},
    {&echo_request6, {{56, 0x00}}, FILL, 0, 0, 0, {{56, 0x6e}}},
    {&fragment4_first, {{0, 0}}, FILL, 0, 0, 0, {{0, 0}}},
    {&arp4, {{0, 0}}, FILL, 0, 0, 0, {{0, 0}}},
    /* hop limit and DSCP */
    {&udp4_by_hand, {{0, 0}}, HOP_LIMIT, 0, 0, 0x11, {{22, 0x11}, {24, 0xe6}}},
    {&udp6_by_hand, {{0, 0}}, HOP_LIMIT, 0, 0, 1, {{21, 0x01}}},
    {&udp4_by_hand, {{13, 0x06}}, HOP_LIMIT, 0, 0, 1, {{0, 0}}},
    {&udp4_by_hand, {{14, 0x55}}, HOP_LIMIT, 0, 0, 1, {{0, 0}}},
    {&udp4_by_hand, {{17, 0x21}}, HOP_LIMIT, 0, 0, 1, {{0, 0}}}, /* a packet that is cut */
    {&udp6_by_hand, {{20, 0}}, HOP_LIMIT, 0, 0, 63, {{21, 63}}}, /* before hop-by-hop options */
    {&syn, {{0, 0}}, DSCP, 0, 0, 46, {{15, 0xb8}, {25, 0x44}}},
    {&syn, {{15, 0xb8}, {25, 0x44}}, DSCP, 0, 0, 64, {{0, 0}}},
    {&syn, {{15, 0xb8}, {25, 0x44}}, DSCP, 0, 0, 0, {{15, 0}, {25, 0xfc}}},
    {&udp6_by_hand, {{15, 0x3a}}, DSCP, 0, 0, 46, {{14, 0x6b}, {15, 0xba}}}, /* ECN and the flow label stay */
    /* addresses */
    {&syn, {{0, 0}}, ADDR, 0, "203.0.113.7", 0, {NEW_SOURCE, {50, 0x5e}, {51, 0xb7}}},
    {&udp4_by_hand, {{0, 0}}, ADDR, 1, "203.0.113.7", 0,
     {{24, 0x3d}, {25, 0x1c}, {30, 0xcb}, {31, 0x00}, {32, 0x71}, {33, 0x07}, {40, 0x97}, {41, 0xef}}},
    {&udp4_by_hand, {{0, 0}}, ADDR, 0, "2001:db8::7", 0, {{0, 0}}},
    {&udp6_by_hand, {{0, 0}}, ADDR, 0, "2001:db8::7", 0,
     {{22, 0x20}, {23, 0x01}, {24, 0x0d}, {25, 0xb8}, {37, 0x07}, {60, 0xd3}, {61, 0x0f}}},
    {&udp6_by_hand, {{0, 0}}, ADDR, 1, "2001:db8::7", 0, {NEW_DESTINATION6, {60, 0xd3}, {61, 0x91}}},
    {&udp6_by_hand, {{20, 0}}, ADDR, 0, "2001:db8::7", 0, {{0, 0}}}, /* hop-by-hop options hide the UDP packet */
    /* ports */
    {&syn, {{0, 0}}, PORT, 0, 0, 0x1234, {{34, 0x12}, {35, 0x34}, {50, 0xb3}, {51, 0xfa}}},
    {&udp4_by_hand, {{0, 0}}, PORT, 1, 0, 0, {{37, 0x00}, {41, 0x82}}},
    {&udp6_by_hand, {{0, 0}}, PORT, 1, 0, 53, {{57, 0x35}, {61, 0x1b}}},
    {&udp4_by_hand, {{40, 0}, {41, 0}}, PORT, 1, 0, 0, {{37, 0x00}}}, /* no checksum */
    {&syn, {{20, 0x20}}, PORT, 0, 0, 0x1234, {{34, 0x12}, {35, 0x34}, {50, 0xb3}, {51, 0xfa}}}, /* a first fragment */
    /* a later fragment */
    {&syn, {{20, 0x20}, {21, 0x01}}, PORT, 0, 0, 0x1234, {{0, 0}}},
    {&syn, {{20, 0x20}, {21, 0x01}}, BYTES, 34, "01", 0, {{0, 0}}},
    {&syn, {{20, 0x20}, {21, 0x01}}, BYTES, 34, "", 0, {{34, 0xed}}},
    {&syn, {{20, 0x20}, {21, 0x01}}, FILL, 0, 0, 0, {{0, 0}}},
    /* bytes: payload, half of each address, the maximum segment size */
    {&data, {{0, 0}}, BYTES, 67, "656c70", 0, {{51, 0xf3}, {69, 0x70}}},
    {&data, {{0, 0}}, BYTES, 70, "21", 0, {{50, 0x01}, {51, 0xf8}, {70, 0x21}}},
    {&syn, {{0, 0}}, BYTES, 29, "630a", 0, {{24, 0x18}, {25, 0x9b}, {29, 0x63}, {30, 0x0a}, {50, 0x8e}, {51, 0x5c}}},
    {&syn, {{0, 0}}, BYTES, 56, "0500", 0, {{50, 0xd9}, {51, 0x71}, {57, 0x00}}},
    /* a checksum that is left to the device */
    {&syn, LOOKS_LEFT, PORT, 0, 0, 0x1234, {{34, 0x12}, {35, 0x34}}},
    {&syn, LOOKS_LEFT, ADDR, 0, "203.0.113.7", 0, {NEW_SOURCE, {50, 0xfe}, {51, 0x38}}},
    {&syn, LOOKS_LEFT, FILL, 0, 0, 0, {{50, 0xd8}, {51, 0xbd}}},
    /* computed checksums, also of one that is right */
    {&udp4_by_hand, {{40, 0}, {41, 0}}, FILL, 0, 0, 0, {{40, 0x12}, {41, 0x4d}}},
    {&udp4_by_hand, {{0, 0}}, FILL, 0, 0, 0, {{40, 0x12}, {41, 0x4d}}},
    {&udp4_by_hand, {{40, 0xff}, {41, 0xff}}, FILL, 0, 0, 0, {{40, 0x12}, {41, 0x4d}}},
    {&udp6_by_hand, {{60, 0}, {61, 0}}, FILL, 0, 0, 0, {{60, 0x02}, {61, 0x4e}}},
    {&udp4_by_hand, {{39, 7}}, FILL, 0, 0, 0, {{0, 0}}},
    {&udp4_by_hand, {{39, 13}}, FILL, 0, 0, 0, {{0, 0}}},
    {&udp4_by_hand, {{23, 47}}, FILL, 0, 0, 0, {{0, 0}}}, /* GRE */
    /* ICMP: over IPv4 the checksum covers no address, over IPv6 it does */
    {&echo12, {{0, 0}}, BYTES, 38, "4321", 0, {{36, 0x74}, {37, 0xa4}, {38, 0x43}, {39, 0x21}}},
    {&echo12, {{0, 0}}, ADDR, 0, "203.0.113.7", 0, {{24, 0x37}, {25, 0xf9}, {26, 0xcb}, {28, 0x71}, {29, 0x07}}},
    {&echo12_6, {{0, 0}}, ADDR, 0, "2001:db8::7", 0, {{37, 0x07}, {57, 0xc7}}},
    {&echo12_6, {{0, 0}}, PORT, 0, 0, 1, {{0, 0}}},
    {&echo12_6, {{0, 0}}, BYTES, 63, "7f", 0, {{57, 0xb7}, {63, 0x7f}}},
    {&echo12_6, {{57, 0}, {63, 0x7f}}, FILL, 0, 0, 0, {{57, 0xb7}}},
    /* a first fragment over IPv6, a later one, and a second fragment header */
    {&udp6_fragment, {{0, 0}}, PORT, 1, 0, 53, {{65, 0x35}, {69, 0x1b}}},
    {&udp6_fragment, {{0, 0}}, ADDR, 1, "2001:db8::7", 0, {NEW_DESTINATION6, {68, 0xd3}, {69, 0x91}}},
    {&udp6_fragment, {{0, 0}}, FILL, 0, 0, 0, {{0, 0}}},
    {&udp6_fragment, {{0, 0}}, BYTES, 61, "01", 0, {{0, 0}}},
    {&udp6_fragment, {{57, 0x09}}, PORT, 1, 0, 53, {{0, 0}}},
    {&udp6_fragment, {{57, 0x09}}, BYTES, 70, "01", 0, {{0, 0}}},
    {&udp6_fragment, {{57, 0x09}}, ADDR, 1, "2001:db8::7", 0, {NEW_DESTINATION6}},
    {&udp6_fragment, {{54, 44}}, ADDR, 1, "2001:db8::7", 0, {{0, 0}}},
    {&udp6_fragment, {{54, 44}}, BYTES, 22, "01", 0, {{0, 0}}},
    {&udp6_fragment, {{54, 44}}, BYTES, 16, "01", 0, {{16, 1}}},
    /* IPv6 extension headers */
    {&udp6_extended, {{0, 0}}, HOP_LIMIT, 0, 0, 1, {{21, 0x01}}},
    {&udp6_extended, {{0, 0}}, ADDR, 0, "2001:db8::7", 0, {{37, 0x07}, {69, 0xf5}}},
    {&udp6_extended, {{0, 0}}, PORT, 0, 0, 0x1234, {{62, 0x12}, {63, 0x34}, {68, 0x6b}, {69, 0xf9}}},
    {&udp6_extended, {{0, 0}}, BYTES, 70, "f100f3", 0, {{68, 0x4d}, {69, 0xed}, {71, 0x00}}},
    {&udp6_extended, {{0, 0}}, BYTES, 58, "01", 0, {{0, 0}}}, /* an option */
    {&udp6_extended, {{68, 0}, {69, 0}}, FILL, 0, 0, 0, {{68, 0x4c}, {69, 0xfb}}},
    {&tcp6_extended, {{0, 0}}, ADDR, 1, "2001:db8:1::7", 0, {{43, 0x01}, {53, 0x07}, {127, 0x11}}},
    {&tcp6_extended, {{0, 0}}, PORT, 1, 0, 53, {{112, 0x00}, {113, 0x35}, {126, 0xb9}, {127, 0x26}}},
    {&tcp6_extended, {{0, 0}}, BYTES, 130, "f100f3", 0, {{126, 0x77}, {127, 0x09}, {131, 0x00}}},
    {&tcp6_extended, {{126, 0}, {127, 0}}, FILL, 0, 0, 0, {{126, 0x76}, {127, 0x17}}},
    {&echo6_extended, {{0, 0}}, ADDR, 0, "2001:db8::7", 0, {{37, 0x07}, {73, 0x16}}},
    {&echo6_extended, {{0, 0}}, BYTES, 78, "f100f3", 0, {{72, 0x2e}, {73, 0x0e}, {79, 0x00}}},
    {&echo6_extended, {{72, 0}, {73, 0}}, FILL, 0, 0, 0, {{72, 0x2d}, {73, 0x1c}}},
    {&udp6_extended_first, {{0, 0}}, ADDR, 1, "2001:db8:1::7", 0, {{43, 0x01}, {53, 0x07}, {77, 0x06}}},
    {&udp6_extended_first, {{0, 0}}, PORT, 1, 0, 53, {{72, 0x00}, {73, 0x35}, {76, 0xb2}, {77, 0x19}}},
    {&udp6_extended_first, {{0, 0}}, FILL, 0, 0, 0, {{0, 0}}},
    {&udp6_extended_later, {{0, 0}}, ADDR, 1, "2001:db8:1::7", 0, {{43, 0x01}, {53, 0x07}}},
    {&udp6_extended_later, {{0, 0}}, PORT, 1, 0, 53, {{0, 0}}},
    /* segments left; hop-by-hop options after a routing header; a header longer than the packet; authentication */
    {&tcp6_extended, {{65, 1}}, ADDR, 1, "2001:db8:1::7", 0, {{0, 0}}},
    {&tcp6_extended, {{65, 1}}, PORT, 1, 0, 53, {{0, 0}}},
    {&tcp6_extended, {{65, 1}}, FILL, 0, 0, 0, {{0, 0}}},
    {&tcp6_extended, {{65, 1}}, HOP_LIMIT, 0, 0, 1, {{21, 0x01}}},
    {&tcp6_extended, {{20, 60}, {62, 0}}, PORT, 1, 0, 53, {{0, 0}}},
    {&udp6_extended, {{55, 2}}, ADDR, 0, "2001:db8::7", 0, {{0, 0}}},
    {&udp6_authenticated, {{0, 0}}, ADDR, 0, "2001:db8::7", 0, {{0, 0}}},
    {&udp6_authenticated, {{0, 0}}, PORT, 0, 0, 0x1234, {{0, 0}}},
    {&udp6_authenticated, {{0, 0}}, BYTES, 94, "f100f3", 0, {{0, 0}}},
    {&udp6_authenticated, {{0, 0}}, FILL, 0, 0, 0, {{0, 0}}},
};

/* What the caller says of the checksum. LK_GUESS updates one that is left to the device and looks valid, and makes a wrong
 * one valid that looks left to the device. */
static const struct {
    struct edit edit;
    int offload;
} told[] = {
    {{&syn, LOOKS_VALID, PORT, 1, 0, 8080, {{36, 0x1f}, {37, 0x90}}}, LK_OFFLOADED},
    {{&syn, LOOKS_VALID, PORT, 1, 0, 8080, {{36, 0x1f}, {37, 0x90}, {50, 0x64}, {51, 0xf2}}}, LK_GUESS},
    {{&syn, LOOKS_VALID, PORT, 1, 0, 8080, {{36, 0x1f}, {37, 0x90}, {50, 0x64}, {51, 0xf2}}}, LK_COMPLETE},
    {{&syn, LOOKS_VALID, ADDR, 1, "198.51.100.7", 0, {NEW_ADDR, {50, 0xec}, {51, 0x6a}}}, LK_OFFLOADED},
    {{&syn, LOOKS_VALID, ADDR, 1, "198.51.100.7", 0, {NEW_ADDR, {50, 0x1b}, {51, 0xfa}}}, LK_GUESS},
    {{&syn, LOOKS_VALID, BYTES, 56, "04ec", 0, {{56, 0x04}, {57, 0xec}}}, LK_OFFLOADED},
    {{&syn, LOOKS_VALID, BYTES, 56, "04ec", 0, {{50, 0x84}, {51, 0xfa}, {56, 0x04}, {57, 0xec}}}, LK_GUESS},
    {{&syn, LOOKS_LEFT, PORT, 1, 0, 0x54db, {{36, 0x54}, {37, 0xdb}}}, LK_GUESS}, /* valid */
    {{&syn, LOOKS_LEFT, PORT, 1, 0, 0x54db, {{36, 0x54}, {37, 0xdb}, {50, 0x2f}, {51, 0xa7}}}, LK_COMPLETE},
    {{&syn, LOOKS_LEFT, PORT, 1, 0, 0x54db, {{36, 0x54}, {37, 0xdb}}}, 3},
    {{&syn, LOOKS_LEFT, PORT, 1, 0, 0x54db, {{36, 0x54}, {37, 0xdb}}}, -2},
    {{&syn, LOOKS_LEFT, ADDR, 1, "198.51.100.7", 0, {NEW_ADDR, {50, 0x1b}, {51, 0xfa}}}, LK_COMPLETE},
    {{&syn, LOOKS_LEFT, BYTES, 56, "04ec", 0, {{50, 0x84}, {51, 0xfa}, {56, 0x04}, {57, 0xec}}}, LK_COMPLETE},
    {{&echo_request, {{0, 0}}, BYTES, 38, "4321", 0, {{36, 0xb5}, {37, 0x06}, {38, 0x43}, {39, 0x21}}}, LK_OFFLOADED},
    /* an ICMP checksum that is by chance the sum of a pseudo-header */
    {{&echo_request, {{36, 0x84}, {37, 0x12}}, BYTES, 38, "4321", 0, {{36, 0xf6}, {37, 0xd4}, {38, 0x43}, {39, 0x21}}},
     LK_GUESS},
    {{&echo_request6, {{56, 0x5b}, {57, 0xbc}}, BYTES, 58, "4321", 0, {{56, 0xce}, {57, 0x7e}, {58, 0x43}, {59, 0x21}}},
     LK_GUESS},
};

/* Makes the call of a row. */
static int edits(const struct edit *row, struct octets *frame)
{
    const char *text = row->text;
    unsigned value = row->value;
    int side = (int)row->number;
    struct lk_addr to = {{0}, 0};
    struct octets bytes = nothing;
    switch (row->field) {
    case HOP_LIMIT:
        return both_set_hop_limit(frame->at, frame->len, (uint8_t)value);
    case DSCP:
        return both_set_dscp(frame->at, frame->len, (uint8_t)value);
    case ADDR:
        to = addr(text);
        return both_set_addr(frame->at, frame->len, side, &to);
    case PORT:
        return both_set_port(frame->at, frame->len, side, (uint16_t)value);
    case BYTES:
        bytes = octets(text);
        return both_set_bytes(frame->at, frame->len, row->number, bytes.at, bytes.len);
    default:
        return both_fill_checksum(frame->at, frame->len);
    }
}

/* The same for a row with the word of the caller. */
static int edits_as(const struct edit *row, struct octets *frame, int offload)
{
    int side = (int)row->number;
    struct lk_addr to = {{0}, 0};
    struct octets bytes = nothing;
    switch (row->field) {
    case ADDR:
        to = addr(row->text);
        return both_set_addr_as(frame->at, frame->len, side, &to, offload);
    case PORT:
        return both_set_port_as(frame->at, frame->len, side, (uint16_t)row->value, offload);
    default:
        bytes = octets(row->text);
        return both_set_bytes_as(frame->at, frame->len, row->number, bytes.at, bytes.len, offload);
    }
}

static struct octets edited_by(const struct edit *row)
{
    struct octets before = cut(row->frame, row->frame->len, row->before);
    return cut(&before, before.len, row->after);
}

/* A length above LK_MAX_LEN is not that of no bytes. A place after the UDP header has room for none. */
static void set_too_many_bytes(void)
{
    struct octets frame = ping;
    CHECK(both_set_bytes(frame.at, frame.len, 42, frame.at, 0) == 1);
    CHECK(both_set_bytes(frame.at, frame.len, 42, frame.at, (size_t)LK_NO_ROOM) == 0);
    CHECK(both_set_bytes(frame.at, frame.len, 42, frame.at, (size_t)LK_MAX_LEN + 1) == 0);
    frame = syn;
    CHECK(both_set_bytes(frame.at, frame.len, SIZE_MAX, ping.at, 2) == 0);
    CHECK(both_set_bytes(frame.at, frame.len, 5, ping.at, 0) == 0);
    CHECK(both_set_bytes(frame.at, frame.len, 74, ping.at, 0) == 1);
    CHECK(memcmp(frame.at, syn.at, syn.len) == 0);
}

static void set_byte(const struct octets *octets, size_t row, size_t at, int taken)
{
    const uint8_t byte = 0xff;
    struct octets frame = *octets;
    CHECK_ROW(row, both_set_bytes(frame.at, frame.len, at, &byte, 1) == taken);
    CHECK_ROW(row, taken ? frame.at[at] == byte : memcmp(frame.at, octets->at, octets->len) == 0);
}

/* Bytes that say where the layers are, and bytes beside them: over IPv4, and over IPv6 (RFC 8200, section 3). */
static void set_each_byte(void)
{
    static const size_t kept[] = {0, 13, 14, 16, 21, 23, 25, 46, 50, 51, 74};
    static const size_t written[] = {15, 22, 26, 34, 45, 47, 49, 52, 73};
    static const size_t kept6[] = {0, 5, 6, 11, 12, 13, 14, 18, 19, 20, 66, 70, 71, 94};
    static const size_t written6[] = {15, 17, 21, 22, 53, 54, 57, 65, 67, 69, 72, 93};
    for (size_t i = 0; i < sizeof kept / sizeof kept[0]; i++)
        set_byte(&syn, i, kept[i], 0);
    for (size_t i = 0; i < sizeof written / sizeof written[0]; i++)
        set_byte(&syn, i, written[i], 1);
    for (size_t i = 0; i < sizeof kept6 / sizeof kept6[0]; i++)
        set_byte(&syn6, i, kept6[i], 0);
    for (size_t i = 0; i < sizeof written6 / sizeof written6[0]; i++)
        set_byte(&syn6, i, written6[i], 1);
}

static void edit_frames(void)
{
    for (size_t i = 0; i < sizeof edited / sizeof edited[0]; i++) {
        struct octets frame = cut(edited[i].frame, edited[i].frame->len, edited[i].before);
        struct octets expected = edited_by(&edited[i]);
        CHECK_ROW(i, edits(&edited[i], &frame) == (edited[i].after[0].at != 0));
        CHECK_ROW(i, memcmp(frame.at, expected.at, frame.len) == 0);
    }
}

static void edit_frames_as_told(void)
{
    for (size_t i = 0; i < sizeof told / sizeof told[0]; i++) {
        const struct edit *row = &told[i].edit;
        struct octets frame = cut(row->frame, row->frame->len, row->before), expected = edited_by(row);
        CHECK_ROW(i, edits_as(row, &frame, told[i].offload) == (row->after[0].at != 0));
        CHECK_ROW(i, memcmp(frame.at, expected.at, frame.len) == 0);
    }
}

void worked_edit(void)
{
    set_too_many_bytes();
    set_each_byte();
    edit_frames();
    edit_frames_as_told();
}
