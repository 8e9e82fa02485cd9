package ipwire

/*
#include <ip_wire.h>
*/
import "C"

// Lengths of headers without options, and of an ARP packet, in bytes.
const (
	UDPHeaderLen      = C.LK_UDP_HEADER_LEN
	ICMPHeaderLen     = C.LK_ICMP_HEADER_LEN
	EthernetHeaderLen = C.LK_ETHERNET_HEADER_LEN
	IPv4HeaderLen     = C.LK_IPV4_HEADER_LEN
	TCPHeaderLen      = C.LK_TCP_HEADER_LEN
	ARPLen            = C.LK_ARP_LEN
	IPv6HeaderLen     = C.LK_IPV6_HEADER_LEN
)

// EtherTypes (IANA, IEEE 802 numbers). The last three are those of VLAN tags.
const (
	EtherTypeIPv4        = C.LK_ETHERTYPE_IPV4
	EtherTypeARP         = C.LK_ETHERTYPE_ARP
	EtherTypeIPv6        = C.LK_ETHERTYPE_IPV6
	EtherTypeVLAN        = C.LK_ETHERTYPE_VLAN
	EtherTypeServiceVLAN = C.LK_ETHERTYPE_SERVICE_VLAN
	EtherTypeQinQ        = C.LK_ETHERTYPE_QINQ
)

// IP protocols (IANA, protocol numbers).
const (
	ProtocolHopByHop     = C.LK_PROTOCOL_HOP_BY_HOP
	ProtocolICMP         = C.LK_PROTOCOL_ICMP
	ProtocolIGMP         = C.LK_PROTOCOL_IGMP
	ProtocolTCP          = C.LK_PROTOCOL_TCP
	ProtocolUDP          = C.LK_PROTOCOL_UDP
	ProtocolIPv6         = C.LK_PROTOCOL_IPV6
	ProtocolIPv6Route    = C.LK_PROTOCOL_IPV6_ROUTE
	ProtocolIPv6Fragment = C.LK_PROTOCOL_IPV6_FRAGMENT
	ProtocolESP          = C.LK_PROTOCOL_ESP
	ProtocolAH           = C.LK_PROTOCOL_AH
	ProtocolICMPv6       = C.LK_PROTOCOL_ICMPV6
	ProtocolIPv6NoNext   = C.LK_PROTOCOL_IPV6_NO_NEXT
	ProtocolIPv6Options  = C.LK_PROTOCOL_IPV6_OPTIONS
	ProtocolSCTP         = C.LK_PROTOCOL_SCTP
)

// Operations of ARP (RFC 826).
const (
	ARPRequest = C.LK_ARP_REQUEST
	ARPReply   = C.LK_ARP_REPLY
)

// Types of ICMP messages over IPv4 (RFC 792).
const (
	ICMPEchoReply        = C.LK_ICMP_ECHO_REPLY
	ICMPUnreachable      = C.LK_ICMP_UNREACHABLE
	ICMPSourceQuench     = C.LK_ICMP_SOURCE_QUENCH
	ICMPRedirect         = C.LK_ICMP_REDIRECT
	ICMPEchoRequest      = C.LK_ICMP_ECHO_REQUEST
	ICMPTimeExceeded     = C.LK_ICMP_TIME_EXCEEDED
	ICMPParameterProblem = C.LK_ICMP_PARAMETER_PROBLEM
)

// Codes of an ICMP error of the type unreachable over IPv4 (RFC 792; RFC 1812, section 5.2.7.1).
const (
	ICMPCodeNet                 = C.LK_ICMP_CODE_NET
	ICMPCodeHost                = C.LK_ICMP_CODE_HOST
	ICMPCodeProtocol            = C.LK_ICMP_CODE_PROTOCOL
	ICMPCodePort                = C.LK_ICMP_CODE_PORT
	ICMPCodeFragmentationNeeded = C.LK_ICMP_CODE_FRAGMENTATION_NEEDED
	ICMPCodeProhibited          = C.LK_ICMP_CODE_PROHIBITED
)

// Types of ICMP messages over IPv6 (RFC 4443; RFC 2710; RFC 4861). Those of errors are below 128.
const (
	ICMPv6Unreachable            = C.LK_ICMPV6_UNREACHABLE
	ICMPv6PacketTooBig           = C.LK_ICMPV6_PACKET_TOO_BIG
	ICMPv6TimeExceeded           = C.LK_ICMPV6_TIME_EXCEEDED
	ICMPv6ParameterProblem       = C.LK_ICMPV6_PARAMETER_PROBLEM
	ICMPv6EchoRequest            = C.LK_ICMPV6_ECHO_REQUEST
	ICMPv6EchoReply              = C.LK_ICMPV6_ECHO_REPLY
	ICMPv6MLDQuery               = C.LK_ICMPV6_MLD_QUERY
	ICMPv6MLDReport              = C.LK_ICMPV6_MLD_REPORT
	ICMPv6RouterSolicitation     = C.LK_ICMPV6_ROUTER_SOLICITATION
	ICMPv6RouterAdvertisement    = C.LK_ICMPV6_ROUTER_ADVERTISEMENT
	ICMPv6NeighbourSolicitation  = C.LK_ICMPV6_NEIGHBOUR_SOLICITATION
	ICMPv6NeighbourAdvertisement = C.LK_ICMPV6_NEIGHBOUR_ADVERTISEMENT
	ICMPv6Redirect               = C.LK_ICMPV6_REDIRECT
)

// Codes of an ICMP error of the type unreachable over IPv6 (RFC 4443, section 3.1).
const (
	ICMPv6CodeNoRoute    = C.LK_ICMPV6_CODE_NO_ROUTE
	ICMPv6CodeProhibited = C.LK_ICMPV6_CODE_PROHIBITED
	ICMPv6CodeAddress    = C.LK_ICMPV6_CODE_ADDRESS
	ICMPv6CodePort       = C.LK_ICMPV6_CODE_PORT
)

// Link types of capture files (www.tcpdump.org/linktypes.html).
const (
	LinkTypeNull      = C.LK_LINKTYPE_NULL
	LinkTypeEthernet  = C.LK_LINKTYPE_ETHERNET
	LinkTypeRaw       = C.LK_LINKTYPE_RAW
	LinkTypeLoop      = C.LK_LINKTYPE_LOOP
	LinkTypeLinuxSLL  = C.LK_LINKTYPE_LINUX_SLL
	LinkTypeIPv4      = C.LK_LINKTYPE_IPV4
	LinkTypeIPv6      = C.LK_LINKTYPE_IPV6
	LinkTypeLinuxSLL2 = C.LK_LINKTYPE_LINUX_SLL2
)
