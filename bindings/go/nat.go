package ipwire

/*
#include <ip_wire.h>
*/
import "C"

import (
	"net/netip"
	"time"
)

// Translate writes an IPv4 address and a port into the UDP or TCP packet of an Ethernet frame, in place (RFC 3022), and
// updates the checksums. The identifier of an ICMP echo message counts as its port. The error is a Rejection from NoIPv4 to
// NATPortZero, but not HopLimitTooLow; the frame is unchanged then.
func Translate(frame []byte, side Side, end netip.AddrPort) error {
	ptr, length := memory(frame)
	value := cEndpoint(end)
	return rejection(C.lk_translate(ptr, length, C.int(side), &value))
}

// NATConfig is what a NAT is made with. Zero values are the defaults.
type NATConfig struct {
	Outside              netip.Addr    // the outside IPv4 address
	FirstPort            uint16        // the first outside port: 1024
	Ports                uint16        // how many outside ports there are, but none above 65535: 64512
	Key                  [2]uint64     // random and secret: made by crypto/rand
	UDPTimeout           time.Duration // of a UDP mapping: 5 minutes (RFC 4787, REQ-5)
	TCPTimeout           time.Duration // of an established TCP connection: 2 hours 4 minutes (RFC 5382, REQ-5)
	TCPTransitoryTimeout time.Duration // of one that opens or closes: 4 minutes
	ICMPTimeout          time.Duration // 1 minute (RFC 5508, REQ-2)
}

// NAT is a NAT with one outside address (RFC 3022, RFC 4787). A mapping belongs to one inside endpoint, whatever the remote
// endpoints are, and lives until its time-out has passed since the last packet of this endpoint. Two goroutines must not use
// one NAT at once.
type NAT struct {
	nat      C.struct_lk_nat
	mappings []C.struct_lk_mapping
}

// NewNAT returns a NAT without a mapping. The error is NoVersion if Outside is no IPv4 address.
func NewNAT(config NATConfig) (*NAT, error) {
	if !config.Outside.Is4() {
		return nil, NoVersion
	}
	if config.FirstPort == 0 {
		config.FirstPort = 1024
	}
	if config.Ports == 0 {
		config.Ports = 64512
	}
	if config.Key == [2]uint64{} {
		config.Key = [2]uint64{uint64(random())<<32 | uint64(random()), uint64(random())<<32 | uint64(random())}
	}
	n := &NAT{mappings: make([]C.struct_lk_mapping, 3*int(config.Ports))} // LK_MAPPINGS
	n.nat = C.struct_lk_nat{
		key:                    [2]C.uint64_t{C.uint64_t(config.Key[0]), C.uint64_t(config.Key[1])},
		udp_timeout:            milliseconds(config.UDPTimeout, 5*time.Minute),
		tcp_timeout:            milliseconds(config.TCPTimeout, 2*time.Hour+4*time.Minute),
		tcp_transitory_timeout: milliseconds(config.TCPTransitoryTimeout, 4*time.Minute),
		icmp_timeout:           milliseconds(config.ICMPTimeout, time.Minute),
		first_port:             C.uint16_t(config.FirstPort),
	}
	for place, octet := range config.Outside.As4() {
		n.nat.outside[place] = C.uint8_t(octet)
	}
	return n, nil
}

// milliseconds returns a time-out, or the default if it is not above 0.
func milliseconds(timeout, other time.Duration) C.uint64_t {
	if timeout <= 0 {
		timeout = other
	}
	return C.uint64_t(timeout.Milliseconds())
}

// TranslateOut translates the source of a packet that leaves, in an Ethernet frame, in place. now is the time since a fixed
// moment, and never goes back. The error is a Rejection from NotIP to NoFreePort, but not HopLimitTooLow; the frame is unchanged
// then.
func (n *NAT) TranslateOut(now time.Duration, frame []byte) error {
	mappings, count := first(n.mappings)
	ptr, length := memory(frame)
	return rejection(C.lk_translate_out(&n.nat, mappings, count, C.uint64_t(now.Milliseconds()), ptr, length))
}

// TranslateIn translates the destination of a packet that comes in. The error is a Rejection from NotIP to NoMapping, but
// not HopLimitTooLow.
func (n *NAT) TranslateIn(now time.Duration, frame []byte) error {
	mappings, count := first(n.mappings)
	ptr, length := memory(frame)
	return rejection(C.lk_translate_in(&n.nat, mappings, count, C.uint64_t(now.Milliseconds()), ptr, length))
}

// ShrinkReach shortens the search for the port of a new endpoint, after mappings have ended. Call it now and then, as once a
// minute: it reads all mappings. Each endpoint keeps its outside port.
func (n *NAT) ShrinkReach(now time.Duration) {
	mappings, count := first(n.mappings)
	C.lk_shrink_reach(&n.nat, mappings, count, C.uint64_t(now.Milliseconds()))
}
