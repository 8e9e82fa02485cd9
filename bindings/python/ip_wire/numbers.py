"""The numbers of header fields, written by tools/from_header.py."""
from ._convert import NamedInt

UDP_HEADER_LEN = 8
ICMP_HEADER_LEN = 8
ETHERNET_HEADER_LEN = 14
IPV4_HEADER_LEN = 20
TCP_HEADER_LEN = 20
ARP_LEN = 28
IPV6_HEADER_LEN = 40


class Ethertype(NamedInt):
    """EtherTypes (IANA, IEEE 802 numbers). The last three are those of VLAN tags."""

    IPV4 = 0x0800
    ARP = 0x0806
    IPV6 = 0x86DD
    VLAN = 0x8100
    SERVICE_VLAN = 0x88A8
    QINQ = 0x9100


class Protocol(NamedInt):
    """IP protocols (IANA, protocol numbers)."""

    HOP_BY_HOP = 0
    ICMP = 1
    IGMP = 2
    TCP = 6
    UDP = 17
    IPV6 = 41
    IPV6_ROUTE = 43
    IPV6_FRAGMENT = 44
    ESP = 50
    AH = 51
    ICMPV6 = 58
    IPV6_NO_NEXT = 59
    IPV6_OPTIONS = 60
    SCTP = 132


class ArpOperation(NamedInt):
    """Operations of ARP (RFC 826)."""

    REQUEST = 1
    REPLY = 2


class IcmpType(NamedInt):
    """Types of ICMP messages over IPv4 (RFC 792)."""

    ECHO_REPLY = 0
    UNREACHABLE = 3
    SOURCE_QUENCH = 4
    REDIRECT = 5
    ECHO_REQUEST = 8
    TIME_EXCEEDED = 11
    PARAMETER_PROBLEM = 12


class IcmpCode(NamedInt):
    """Codes of an ICMP error of the type unreachable over IPv4 (RFC 792; RFC 1812, section 5.2.7.1)."""

    NET = 0
    HOST = 1
    PROTOCOL = 2
    PORT = 3
    FRAGMENTATION_NEEDED = 4
    PROHIBITED = 13


class Icmpv6Type(NamedInt):
    """Types of ICMP messages over IPv6 (RFC 4443; RFC 2710; RFC 4861). Those of errors are below 128."""

    UNREACHABLE = 1
    PACKET_TOO_BIG = 2
    TIME_EXCEEDED = 3
    PARAMETER_PROBLEM = 4
    ECHO_REQUEST = 128
    ECHO_REPLY = 129
    MLD_QUERY = 130
    MLD_REPORT = 131
    ROUTER_SOLICITATION = 133
    ROUTER_ADVERTISEMENT = 134
    NEIGHBOUR_SOLICITATION = 135
    NEIGHBOUR_ADVERTISEMENT = 136
    REDIRECT = 137


class Icmpv6Code(NamedInt):
    """Codes of an ICMP error of the type unreachable over IPv6 (RFC 4443, section 3.1)."""

    NO_ROUTE = 0
    PROHIBITED = 1
    ADDRESS = 3
    PORT = 4


class Linktype(NamedInt):
    """Link types of capture files (www.tcpdump.org/linktypes.html)."""

    NULL = 0
    ETHERNET = 1
    RAW = 101
    LOOP = 108
    LINUX_SLL = 113
    IPV4 = 228
    IPV6 = 229
    LINUX_SLL2 = 276
