// Package ipwire parses and writes Ethernet II, ARP, IPv4, IPv6, ICMP, UDP and TCP packets, and has TCP connections, by
// the proved C library ip_wire, which it finds by pkg-config. The manual page ip_wire(3) and ip_wire.h describe the calls.
//
// No call keeps a slice or writes outside of the slice that it is given to write to. Only a Reassembler, and a Stack with
// its connections, have state. Calls may run in many goroutines at once, if none writes memory that another one uses. What
// a call writes must not overlap another argument.
//
// The library needs an x86-64-v2 processor (SSE4.2 and POPCNT). On an older one the program ends with a panic when
// it starts.
//
// # Edits
//
// SetHopLimit, SetDSCP, SetAddr, SetPort and SetBytes write one field of the packet in an Ethernet frame, in place, and
// update the checksums that cover it (RFC 1624): that of the IPv4 header, and that of TCP, UDP, ICMP or ICMPv6. No other
// byte changes. They return false if the packet has no such field; then the frame is unchanged.
//
//   - A valid checksum stays valid, and a wrong one stays wrong. A UDP checksum of 0 over IPv4 stays 0. The exception is
//     an ICMP message whose other bytes are all 0.
//   - A TCP or UDP checksum that is ChecksumPartial stays so: an address changes it, as part of the pseudo-header, and
//     nothing else does. The functions guess which it is (Guess). To those with As the caller says it.
//   - ReadFrame must read the IP header. Of TCP, UDP or ICMP only the bytes up to the checksum field must be there, also
//     in the first of several fragments. Append zeros to a packet that was cut, up to its length: only FillChecksum needs
//     the bytes themselves.
//   - IPv6 extension headers are stepped through, up to the header of a fragment. They are not changed. Not supported: a
//     Home Address option (RFC 6275).
//   - Of the Ethernet header only the EtherType is used. For a frame with VLAN tags give frame[link.Offset-14:] of its
//     Link.
//   - If an IPv4 source route has hops left, the checksum covers the last address of the route: a new destination makes a
//     valid one wrong.
package ipwire

/*
#cgo pkg-config: ip_wire
#include <ip_wire.h>
*/
import "C"

func init() {
	if C.lk_cpu_supported() == 0 {
		panic("ipwire: the processor is older than x86-64-v2")
	}
}

// Version returns the version of the C library that is linked: major, minor and patch.
func Version() (major, minor, patch int) {
	version := int(C.lk_version())
	return version >> 16, version >> 8 & 255, version & 255
}

// Failure is why a call wrote nothing. Its zero value is no failure.
type Failure int64

// The failures. If several apply to a call, it is the first of them in this order.
const (
	NoVersion      Failure = C.LK_NO_VERSION       // an address has another version than the call can write
	TwoVersions    Failure = C.LK_TWO_VERSIONS     // one address is IPv4, the other IPv6
	BadPrefix      Failure = C.LK_BAD_PREFIX       // a prefix length above 32 for IPv4, above 128 for IPv6
	EmitPortZero   Failure = C.LK_EMIT_PORT_ZERO   // a port is 0 where receivers reject it
	NoHopLimit     Failure = C.LK_NO_HOP_LIMIT     // the hop limit is 0
	BadField       Failure = C.LK_BAD_FIELD        // a field of IP that this header has no place for
	TwoControls    Failure = C.LK_TWO_CONTROLS     // more than one of SYN, FIN and RST
	OptionsTooLong Failure = C.LK_OPTIONS_TOO_LONG // TCP options of more than 40 bytes, or more than 4 SACK ranges
	PayloadTooLong Failure = C.LK_PAYLOAD_TOO_LONG // the payload is longer than the length field can say, or than the memory of a packet
	NoHeader       Failure = C.LK_NO_HEADER        // the frame has no valid header: the one to be rebuilt, cut or put together
	NoRoom         Failure = C.LK_NO_ROOM          // the result is longer than the slice that is written
	DontFragment   Failure = C.LK_DONT_FRAGMENT    // the packet is longer than the MTU, and has DF
	Dropped        Failure = C.LK_DROPPED          // the fragments of the packet contradict each other
)

// Error returns the name of the failure in ip_wire.h, as "ipwire: LK_NO_ROOM".
func (f Failure) Error() string {
	return "ipwire: " + C.GoString(C.lk_failure_name(C.ptrdiff_t(f)))
}

// first returns the pointer and the length of a slice, as the calls take them.
func first[T any](slice []T) (*T, C.size_t) {
	if len(slice) == 0 {
		return nil, 0
	}
	return &slice[0], C.size_t(len(slice))
}

// memory does the same with bytes.
func memory(slice []byte) (*C.uint8_t, C.size_t) {
	ptr, length := first(slice)
	return (*C.uint8_t)(ptr), length
}

// written returns the part of out that a call wrote.
func written(out []byte, length C.ptrdiff_t) ([]byte, error) {
	if length < 0 {
		return nil, Failure(length)
	}
	return out[:length], nil
}

// flag is the number of a truth value in C.
func flag(value bool) C.uint8_t {
	if value {
		return 1
	}
	return 0
}
