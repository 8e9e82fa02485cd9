package ipwire

/*
#include <ip_wire.h>
*/
import "C"

import (
	"net/netip"
	"unsafe"
)

// Ethernet is an Ethernet header. The calls Emit.. fill in Type.
type Ethernet struct {
	Src, Dst HardwareAddr
	Type     uint16 // such as EtherTypeIPv4
}

// ARP is an ARP packet for Ethernet and IPv4 (RFC 826), without its IPv4 addresses.
type ARP struct {
	Operation                uint16 // ARPRequest or ARPReply
	SrcHardware, DstHardware HardwareAddr
}

// IP is an IPv4 or IPv6 header without its addresses and lengths. A HopLimit of 0 cannot be written.
type IP struct {
	Ident          uint32 // IPv4: 16 bits; IPv6: of the fragment header
	FlowLabel      uint32 // IPv6: 20 bits
	FragmentOffset uint16 // in bytes, a multiple of 8
	Protocol       uint8  // such as ProtocolUDP; the calls Emit.. fill it in
	HopLimit       uint8  // 64 is usual
	DSCP           uint8  // 6 bits; of IPv6 those of the traffic class
	ECN            uint8  // 2 bits
	MoreFragments  bool
	DontFragment   bool // IPv4
}

// The flags of a TCP header.
const (
	FIN = C.LK_FIN
	SYN = C.LK_SYN
	RST = C.LK_RST
	PSH = C.LK_PSH
	ACK = C.LK_ACK
	URG = C.LK_URG
	ECE = C.LK_ECE
	CWR = C.LK_CWR
)

// TCP is a TCP header (RFC 9293) without its ports, checksum and options.
type TCP struct {
	SeqNumber uint32 // of the first payload byte, or of SYN
	AckNumber uint32 // the next expected number, if ACK is set
	WindowLen uint16 // in bytes, before scaling
	UrgentAt  uint16 // the urgent pointer
	Flags     uint8  // a sum of FIN to CWR
}

// ICMP is the header of an ICMP message (RFC 792; over IPv6 RFC 4443) without its checksum.
type ICMP struct {
	Word uint32 // bytes 4 to 7: of an echo, identifier * 65536 + sequence number
	Type uint8  // such as ICMPEchoRequest, over IPv6 ICMPv6EchoRequest
	Code uint8
}

// Headers has the headers of a frame. Those that it does not have are zero. The ports of Src and Dst are those of UDP
// and TCP.
type Headers struct {
	Ethernet Ethernet
	Src, Dst netip.AddrPort
	IP       IP
	TCP      TCP
	ICMP     ICMP
	ARP      ARP
}

// Reply returns the headers of a reply: Ethernet addresses, endpoints and ARP's hardware addresses are exchanged. The
// IP header is that of a new packet, with the same DSCP.
func (h *Headers) Reply() Headers {
	frame := h.c()
	C.lk_make_reply(&frame)
	return headersOf(&frame)
}

// c returns the struct of the headers.
func (h *Headers) c() C.struct_lk_frame {
	return C.struct_lk_frame{
		ethernet: C.struct_lk_ethernet{src: h.Ethernet.Src.c(), dst: h.Ethernet.Dst.c(), _type: C.uint16_t(h.Ethernet.Type)},
		src:      cEndpoint(h.Src),
		dst:      cEndpoint(h.Dst),
		ip: C.struct_lk_ip{
			ident:           C.uint32_t(h.IP.Ident),
			flow_label:      C.uint32_t(h.IP.FlowLabel),
			fragment_offset: C.uint16_t(h.IP.FragmentOffset),
			protocol:        C.uint8_t(h.IP.Protocol),
			hop_limit:       C.uint8_t(h.IP.HopLimit),
			dscp:            C.uint8_t(h.IP.DSCP),
			ecn:             C.uint8_t(h.IP.ECN),
			more_fragments:  flag(h.IP.MoreFragments),
			dont_fragment:   flag(h.IP.DontFragment),
		},
		tcp: C.struct_lk_tcp{
			seq_number: C.uint32_t(h.TCP.SeqNumber),
			ack_number: C.uint32_t(h.TCP.AckNumber),
			window_len: C.uint16_t(h.TCP.WindowLen),
			urgent_at:  C.uint16_t(h.TCP.UrgentAt),
			flags:      C.uint8_t(h.TCP.Flags),
		},
		icmp: C.struct_lk_icmp{word: C.uint32_t(h.ICMP.Word), _type: C.uint8_t(h.ICMP.Type), code: C.uint8_t(h.ICMP.Code)},
		arp: C.struct_lk_arp{
			operation:    C.uint16_t(h.ARP.Operation),
			src_hardware: h.ARP.SrcHardware.c(),
			dst_hardware: h.ARP.DstHardware.c(),
		},
	}
}

// headersOf returns the headers of a struct.
func headersOf(value *C.struct_lk_frame) (h Headers) {
	h.fill(value)
	return h
}

// fill replaces the headers by those of a struct.
func (h *Headers) fill(value *C.struct_lk_frame) {
	h.Ethernet.Src = hardwareOf(&value.ethernet.src)
	h.Ethernet.Dst = hardwareOf(&value.ethernet.dst)
	h.Ethernet.Type = uint16(value.ethernet._type)
	h.Src = endpointOf(&value.src)
	h.Dst = endpointOf(&value.dst)
	h.IP.Ident = uint32(value.ip.ident)
	h.IP.FlowLabel = uint32(value.ip.flow_label)
	h.IP.FragmentOffset = uint16(value.ip.fragment_offset)
	h.IP.Protocol = uint8(value.ip.protocol)
	h.IP.HopLimit = uint8(value.ip.hop_limit)
	h.IP.DSCP = uint8(value.ip.dscp)
	h.IP.ECN = uint8(value.ip.ecn)
	h.IP.MoreFragments = value.ip.more_fragments != 0
	h.IP.DontFragment = value.ip.dont_fragment != 0
	h.TCP.SeqNumber = uint32(value.tcp.seq_number)
	h.TCP.AckNumber = uint32(value.tcp.ack_number)
	h.TCP.WindowLen = uint16(value.tcp.window_len)
	h.TCP.UrgentAt = uint16(value.tcp.urgent_at)
	h.TCP.Flags = uint8(value.tcp.flags)
	h.ICMP.Word = uint32(value.icmp.word)
	h.ICMP.Type = uint8(value.icmp._type)
	h.ICMP.Code = uint8(value.icmp.code)
	h.ARP.Operation = uint16(value.arp.operation)
	h.ARP.SrcHardware = hardwareOf(&value.arp.src_hardware)
	h.ARP.DstHardware = hardwareOf(&value.arp.dst_hardware)
}

// c returns the address as C has it.
func (a HardwareAddr) c() [6]C.uint8_t {
	return *(*[6]C.uint8_t)(unsafe.Pointer(&a))
}

func hardwareOf(octets *[6]C.uint8_t) HardwareAddr {
	return *(*HardwareAddr)(unsafe.Pointer(octets))
}
