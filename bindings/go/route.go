package ipwire

/*
#include <ip_wire.h>
*/
import "C"

import "net/netip"

// Rejection is why a frame is not forwarded, translated or accepted. Its zero value is no rejection.
type Rejection uint8

// The rejections. If several apply, it is the first in this order.
const (
	NoIPv4           Rejection = C.LK_NO_IPV4            // the endpoint to be written has no IPv4 address
	NotIP            Rejection = C.LK_NOT_IP             // no Ethernet header, or an EtherType other than IPv4 and IPv6
	BadHeader        Rejection = C.LK_BAD_HEADER         // the version of the IP header or its lengths do not fit
	WrongChecksum    Rejection = C.LK_WRONG_CHECKSUM     // of the IPv4 header
	HopLimitTooLow   Rejection = C.LK_HOP_LIMIT_TOO_LOW  // the hop limit is 0 or 1
	RejectedFragment Rejection = C.LK_FRAGMENT           // NAT: the packet is a fragment
	OtherProtocol    Rejection = C.LK_OTHER_PROTOCOL     // NAT: neither UDP, TCP nor an ICMP message that is translated
	BadTransport     Rejection = C.LK_BAD_TRANSPORT      // NAT: the UDP, TCP or ICMP header or its checksum is wrong
	NATPortZero      Rejection = C.LK_NAT_PORT_ZERO      // NAT: a port is 0
	NoMapping        Rejection = C.LK_NO_MAPPING         // NAT: no live mapping has this outside address and port
	NoFreePort       Rejection = C.LK_NO_FREE_PORT       // NAT: no outside port is free for this endpoint
	Martian          Rejection = C.LK_MARTIAN            // no host may send from this address
	NoRouteToSource  Rejection = C.LK_NO_ROUTE_TO_SOURCE // there is no route back
	OtherInterface   Rejection = C.LK_OTHER_INTERFACE    // the route back leads to another interface
)

// Error returns the name of the rejection in ip_wire.h, as "ipwire: LK_HOP_LIMIT_TOO_LOW".
func (r Rejection) Error() string {
	return "ipwire: " + C.GoString(C.lk_rejection_name(C.int(r)))
}

func rejection(number C.int) error {
	if number == C.LK_NOT_REJECTED {
		return nil
	}
	return Rejection(number)
}

// Forward forwards the packet of an Ethernet frame by one hop, in place (RFC 1812, section 5.3.1): src and dst are the
// new Ethernet addresses, the hop limit becomes one less, and the checksum of an IPv4 header is updated. The error is
// NotIP, BadHeader, WrongChecksum or HopLimitTooLow; the frame is unchanged then.
func Forward(frame []byte, src, dst HardwareAddr) error {
	ptr, length := memory(frame)
	return rejection(C.lk_forward(ptr, length, src.ptr(), dst.ptr()))
}

// ClampMSS lowers the maximum segment size of a TCP SYN in an Ethernet frame, in place, and updates the TCP checksum. A
// router does so with each frame that comes in or leaves by a link with a smaller MTU: to the MTU less 40 over IPv4, and
// less 60 over IPv6. It tells whether the size was larger; if not, the frame is unchanged.
//
//   - Of several such options the last counts. A SYN without one stays as it is.
//   - A valid checksum stays valid, and a wrong one wrong. One that is ChecksumPartial is unchanged, because it does not
//     cover the option.
//   - A frame stays as it is if ReadFrame rejects a header, and if it is a fragment, has a wrong IPv4 header checksum, or
//     has IPv6 extension headers before TCP.
func ClampMSS(frame []byte, mss uint16) bool {
	return ClampMSSAs(frame, mss, Guess)
}

// ClampMSSAs is ClampMSS of a frame whose checksum is known to be left to the device, or not to be.
func ClampMSSAs(frame []byte, mss uint16, offload Offload) bool {
	ptr, length := memory(frame)
	return C.lk_clamp_mss_as(ptr, length, C.uint16_t(mss), C.int(offload)) != 0
}

// Route is a route to the addresses with a prefix.
type Route struct {
	Prefix    netip.Prefix
	NextHop   netip.Addr // the next router; zero: the destinations are on the link
	Interface uint16     // a number that the caller chooses
}

// Routes is a list of routes with an index and a table, by which a search takes few steps. Each route takes 40 bytes,
// its index 32 and its table 40. A list of 2^26 routes or more has no table.
type Routes struct {
	routes []C.struct_lk_route
	nodes  []C.struct_lk_route_node
	cells  []C.uint64_t // the table, or none
}

// NewRoutes makes the index and the table of a list of routes. The error is NoVersion or BadPrefix if a prefix is
// invalid.
func NewRoutes(routes []Route) (*Routes, error) {
	r := &Routes{
		routes: make([]C.struct_lk_route, len(routes)),
		nodes:  make([]C.struct_lk_route_node, len(routes)),
	}
	for place, route := range routes {
		r.routes[place] = C.struct_lk_route{
			prefix:     cPrefix(route.Prefix),
			next_hop:   cAddr(route.NextHop),
			_interface: C.uint16_t(route.Interface),
		}
	}
	list, count := first(r.routes)
	nodes, room := first(r.nodes)
	if indexed := C.lk_index_routes(list, count, nodes, room); indexed < 0 {
		return nil, Failure(indexed)
	}
	if len(routes) < 1<<26 {
		r.cells = make([]C.uint64_t, 5*(len(routes)+1)) // LK_ROUTE_TABLE_LEN
		cells, cellCount := first(r.cells)
		if made := C.lk_make_route_table(nodes, count, cells, cellCount); made < 0 {
			return nil, Failure(made)
		}
	}
	return r, nil
}

// Choose returns the place in the list of the route with the longest prefix that contains the address, of several the
// first, or -1 if none contains it.
func (r *Routes) Choose(addr netip.Addr) int {
	nodes, count := first(r.nodes)
	cells, cellCount := first(r.cells)
	value := cAddr(addr)
	return int(C.lk_choose_route_by_table(nodes, count, cells, cellCount, &value))
}

// CheckSource tells whether a router may accept a packet from src that came in by an interface (strict reverse path
// forwarding, RFC 3704, section 2.2). The error is Martian, NoRouteToSource or OtherInterface.
func (r *Routes) CheckSource(src netip.Addr, interfaceNumber uint16) error {
	list, count := first(r.routes)
	nodes, nodeCount := first(r.nodes)
	cells, cellCount := first(r.cells)
	value := cAddr(src)
	return rejection(C.lk_check_source_by_table(list, count, nodes, nodeCount, cells, cellCount, &value,
		C.uint16_t(interfaceNumber)))
}
