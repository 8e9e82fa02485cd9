package ipwire

/*
#include <ip_wire.h>

// The ports are those of Go, which a struct of Go must not point to.
static ptrdiff_t answer(const struct lk_host *host, const uint16_t *ports, size_t count, const uint16_t *udp_ports,
                        size_t udp_count, const uint8_t *frame, size_t len, uint8_t *out, size_t cap)
{
    struct lk_host own = *host;
    own.open_ports = ports;
    own.open_port_count = count;
    own.open_udp_ports = udp_ports;
    own.open_udp_port_count = udp_count;
    return lk_answer(&own, frame, len, out, cap);
}
*/
import "C"

import "net/netip"

// Host is a host with one interface and no connections. A Stack has connections.
type Host struct {
	Hardware     HardwareAddr
	IPv4, IPv6   netip.Addr // zero: it has none
	OpenPorts    []uint16   // of TCP
	OpenUDPPorts []uint16   // the caller serves them: what comes to them is not answered
	EchoPort     uint16     // of UDP; 0: none
	SeqNumber    uint32     // what an open port sends, and what follows it: hard to guess, another for each connection
	TSval        uint32
	WindowLen    uint16
	MSS          uint16
	WindowScale  uint8
	IsRouter     bool // it forwards packets, and its neighbour advertisements have the flag R
}

// Answer writes the answer to an Ethernet frame to the beginning of out, and returns this part of it. It is empty if the
// frame gets no answer; the comment of lk_answer in ip_wire.h has the cases. The error is a Failure. An answer is at most
// 114 bytes longer than the frame.
func (h *Host) Answer(frame, out []byte) ([]byte, error) {
	host := C.struct_lk_host{
		ipv4:         addrOr(h.IPv4, netip.IPv4Unspecified()),
		ipv6:         addrOr(h.IPv6, netip.IPv6Unspecified()),
		hardware:     h.Hardware.c(),
		echo_port:    C.uint16_t(h.EchoPort),
		seq_number:   C.uint32_t(h.SeqNumber),
		tsval:        C.uint32_t(h.TSval),
		window_len:   C.uint16_t(h.WindowLen),
		mss:          C.uint16_t(h.MSS),
		window_scale: C.uint8_t(h.WindowScale),
		is_router:    flag(h.IsRouter),
	}
	ports, count := first(h.OpenPorts)
	udpPorts, udpCount := first(h.OpenUDPPorts)
	ptr, length := memory(frame)
	to, room := memory(out)
	return written(out, C.answer(&host, (*C.uint16_t)(ports), count, (*C.uint16_t)(udpPorts), udpCount, ptr, length, to, room))
}

// addrOr returns the struct of an address, or of another one if it is zero.
func addrOr(addr, other netip.Addr) C.struct_lk_addr {
	if !addr.IsValid() {
		addr = other
	}
	return cAddr(addr)
}

// Problem is why a packet was dropped.
type Problem int

// The problems that an ICMP error tells.
const (
	HopLimitExpired      Problem = C.LK_HOP_LIMIT_EXPIRED // the hop limit is 0 or 1
	PacketTooBig         Problem = C.LK_PACKET_TOO_BIG    // the packet is longer than the MTU of the next link, and over IPv4 has DF
	NoRouteToDestination Problem = C.LK_NO_ROUTE_TO_DESTINATION
	NeighbourMissing     Problem = C.LK_NEIGHBOUR_MISSING // the next hop has no hardware address
	PortClosed           Problem = C.LK_PORT_CLOSED
	Prohibited           Problem = C.LK_PROHIBITED       // a filter rejects it
	FragmentMissing      Problem = C.LK_FRAGMENT_MISSING // the packet is not complete in time
)

// Interface is an interface of a host or router.
type Interface struct {
	Hardware   HardwareAddr
	IPv4, IPv6 netip.Addr // zero: it has none
}

// EmitError writes an Ethernet frame with an ICMP error about a frame that came in by the interface, to the beginning of
// out, and returns this part of it. It is empty if the frame may get none; the comment of lk_emit_icmp_error in ip_wire.h has
// the cases. mtu is that of the next link, for PacketTooBig. 1294 bytes always suffice. The error is a Failure. The caller
// limits the rate.
func (i *Interface) EmitError(problem Problem, mtu uint32, frame, out []byte) ([]byte, error) {
	own := C.struct_lk_interface{
		ipv4:     addrOr(i.IPv4, netip.IPv4Unspecified()),
		ipv6:     addrOr(i.IPv6, netip.IPv6Unspecified()),
		hardware: i.Hardware.c(),
	}
	ptr, length := memory(frame)
	to, room := memory(out)
	return written(out, C.lk_emit_icmp_error(&own, C.int(problem), C.uint32_t(mtu), ptr, length, to, room))
}
