package ipwire

/*
#include <ip_wire.h>
*/
import "C"

import "net/netip"

// Side is an end of a packet.
type Side int

// The two ends of a packet.
const (
	Source      Side = C.LK_SOURCE
	Destination Side = C.LK_DESTINATION
)

// Offload tells whether the TCP or UDP checksum of a frame is left to the device that sends it (checksum offload). No
// frame says so, but a virtio header and a packet socket do.
type Offload int

// What is known of a checksum.
const (
	// Guess is for an unknown one: it is left to the device if the field is the sum of the pseudo-header, and is not
	// valid as it is. This is wrong for one in 65,536 frames whose checksum is left to the device, and spoils it.
	Guess     Offload = C.LK_GUESS
	Offloaded Offload = C.LK_OFFLOADED // left to the device: the field is the sum of the pseudo-header
	Complete  Offload = C.LK_COMPLETE  // not left to the device
)

// SetHopLimit writes the TTL of IPv4, or the hop limit of IPv6. The part "Edits" of the package's documentation holds for
// this function and the next ones.
func SetHopLimit(frame []byte, hopLimit uint8) bool {
	ptr, length := memory(frame)
	return C.lk_set_hop_limit(ptr, length, C.uint8_t(hopLimit)) != 0
}

// SetDSCP writes the DSCP, 6 bits (RFC 2474). ECN stays. It returns false for numbers above 63.
func SetDSCP(frame []byte, dscp uint8) bool {
	ptr, length := memory(frame)
	return C.lk_set_dscp(ptr, length, C.uint8_t(dscp)) != 0
}

// SetAddr writes an address. It returns false if the packet has another version, and if a checksum covers the addresses
// and is not found:
//
//   - TCP, UDP or ICMP is cut, or the length of UDP is below 8.
//   - There is an authentication header: an edit would make it invalid.
//   - An IPv6 extension header is rejected: it is cut, hop-by-hop options are not the first, or a routing header has
//     segments left. Or another one follows the header of a fragment.
//   - It is DCCP (33), OSPF (89), VRRP (112), UDP-Lite (136) or HIP (139), or over IPv6 PIM (103) or Mobility (135).
//
// Of a fragment that is not the first, only the IP header is updated.
func SetAddr(frame []byte, side Side, addr netip.Addr) bool {
	return SetAddrAs(frame, side, addr, Guess)
}

// SetAddrAs is SetAddr of a frame whose checksum is known to be left to the device, or not to be.
func SetAddrAs(frame []byte, side Side, addr netip.Addr, offload Offload) bool {
	ptr, length := memory(frame)
	value := cAddr(addr)
	return C.lk_set_addr_as(ptr, length, C.int(side), &value, C.int(offload)) != 0
}

// SetPort writes a port of TCP or UDP. Port 0 is written too.
func SetPort(frame []byte, side Side, port uint16) bool {
	return SetPortAs(frame, side, port, Guess)
}

// SetPortAs is SetPort of a frame whose checksum is known to be left to the device, or not to be.
func SetPortAs(frame []byte, side Side, port uint16, offload Offload) bool {
	ptr, length := memory(frame)
	return C.lk_set_port_as(ptr, length, C.int(side), C.uint16_t(port), C.int(offload)) != 0
}

// SetBytes writes bytes from an offset of the frame on, as an option, an address, payload or padding. It returns false if
// the frame does not have all of them, if they would replace one of these bytes, or if there are none and the offset is
// between two of these bytes:
//
//   - the Ethernet header,
//   - the version, lengths, identification, flags, fragment offset, protocol and checksum of the IPv4 header,
//   - the version, payload length and next header of the IPv6 header, and its extension headers,
//   - the transport checksum, the data offset of TCP, and the length of UDP,
//   - the payload of a fragment that is not the first, whose checksum is in the first one,
//   - all from the addresses to the end of the packet, if a checksum covers the addresses and is not found (SetAddr).
func SetBytes(frame []byte, offset int, data []byte) bool {
	return SetBytesAs(frame, offset, data, Guess)
}

// SetBytesAs is SetBytes of a frame whose checksum is known to be left to the device, or not to be.
func SetBytesAs(frame []byte, offset int, data []byte, offload Offload) bool {
	ptr, length := memory(frame)
	from, count := memory(data)
	return C.lk_set_bytes_as(ptr, length, C.size_t(offset), from, count, C.int(offload)) != 0
}

// FillChecksum computes the TCP, UDP, ICMP or ICMPv6 checksum anew, in place, as a device does for ChecksumPartial, also
// where UDP has none. It returns false for fragments other than atomic ones, and for UDP whose length does not fit.
//
// If an IPv4 source route has hops left, the result covers the next hop, and the last receiver rejects it.
func FillChecksum(frame []byte) bool {
	ptr, length := memory(frame)
	return C.lk_fill_checksum(ptr, length) != 0
}
