package ipwire

/*
#include <ip_wire.h>

// The texts are not copied, and the calls return structs, so that Go allocates nothing. Version 0: it does not parse.
static struct lk_addr parse_addr(_GoString_ text)
{
    struct lk_addr addr = {.version = 0};
    lk_parse_addr(_GoStringPtr(text), _GoStringLen(text), &addr);
    return addr;
}

static struct lk_endpoint parse_endpoint(_GoString_ text)
{
    struct lk_endpoint endpoint = {.addr.version = 0};
    lk_parse_endpoint(_GoStringPtr(text), _GoStringLen(text), &endpoint);
    return endpoint;
}

static struct lk_prefix parse_prefix(_GoString_ text)
{
    struct lk_prefix prefix = {.addr.version = 0};
    lk_parse_prefix(_GoStringPtr(text), _GoStringLen(text), &prefix);
    return prefix;
}

// The address is the source. The EtherType says whether there is one.
static struct lk_ethernet parse_mac(_GoString_ text)
{
    struct lk_ethernet header = {.type = 0};
    header.type = lk_parse_mac(_GoStringPtr(text), _GoStringLen(text), header.src) != 0;
    return header;
}
*/
import "C"

import (
	"errors"
	"net/netip"
	"unsafe"
)

// ErrText is returned for a text that does not parse.
var ErrText = errors.New("ipwire: the text does not parse")

// HardwareAddr is an Ethernet address.
type HardwareAddr [6]byte

// ParseAddr parses an IPv4 or IPv6 address. Other than by netip, leading zeros are accepted, and a zone is rejected.
func ParseAddr(text string) (netip.Addr, error) {
	addr := C.parse_addr(text)
	if addr.version == 0 {
		return netip.Addr{}, ErrText
	}
	return addrOf(&addr), nil
}

// PrintAddr prints an address, by RFC 5952. It fails with NoVersion for the zero Addr.
func PrintAddr(addr netip.Addr) (string, error) {
	var out [C.LK_ADDR_TEXT]C.char
	value := cAddr(addr)
	return printed(out[:], C.lk_print_addr(&value, &out[0], C.size_t(len(out))))
}

// ParseEndpoint parses an address, ':' and a port, with an IPv6 address in brackets; or an address by itself, which
// has port 0.
func ParseEndpoint(text string) (netip.AddrPort, error) {
	endpoint := C.parse_endpoint(text)
	if endpoint.addr.version == 0 {
		return netip.AddrPort{}, ErrText
	}
	return endpointOf(&endpoint), nil
}

// PrintEndpoint prints an address with its port, port 0 too. It fails with NoVersion for the zero AddrPort.
func PrintEndpoint(endpoint netip.AddrPort) (string, error) {
	var out [C.LK_ENDPOINT_TEXT]C.char
	value := cEndpoint(endpoint)
	return printed(out[:], C.lk_print_endpoint(&value, &out[0], C.size_t(len(out))))
}

// ParsePrefix parses a prefix (CIDR block). The address keeps all its bits.
func ParsePrefix(text string) (netip.Prefix, error) {
	prefix := C.parse_prefix(text)
	if prefix.addr.version == 0 {
		return netip.Prefix{}, ErrText
	}
	return netip.PrefixFrom(addrOf(&prefix.addr), int(prefix.prefix_len)), nil
}

// PrintPrefix prints a prefix (CIDR block). It fails with NoVersion or BadPrefix for an invalid one.
func PrintPrefix(prefix netip.Prefix) (string, error) {
	var out [C.LK_PREFIX_TEXT]C.char
	value := cPrefix(prefix)
	return printed(out[:], C.lk_print_prefix(&value, &out[0], C.size_t(len(out))))
}

// Contains tells whether the address has the prefix. No address has one of the other version.
func Contains(prefix netip.Prefix, addr netip.Addr) bool {
	from, value := cPrefix(prefix), cAddr(addr)
	return C.lk_contains(&from, &value) != 0
}

// IsMulticast tells whether the address is a multicast address (224.0.0.0/4, ff00::/8).
func IsMulticast(addr netip.Addr) bool {
	value := cAddr(addr)
	return C.lk_is_multicast(&value) != 0
}

// IsUnicast tells whether the address is neither multicast, nor unspecified (0.0.0.0, ::), nor 255.255.255.255.
func IsUnicast(addr netip.Addr) bool {
	value := cAddr(addr)
	return C.lk_is_unicast(&value) != 0
}

// ParseHardwareAddr parses six groups of 1 or 2 hex digits, all joined by '-' or all by ':'.
func ParseHardwareAddr(text string) (HardwareAddr, error) {
	header := C.parse_mac(text)
	if header._type == 0 {
		return HardwareAddr{}, ErrText
	}
	return hardwareOf(&header.src), nil
}

// String returns six pairs of hex digits, joined by '-'.
func (a HardwareAddr) String() string {
	var out [C.LK_MAC_TEXT]C.char
	C.lk_print_mac(a.ptr(), &out[0], C.size_t(len(out)))
	return C.GoString(&out[0])
}

func (a *HardwareAddr) ptr() *C.uint8_t {
	return (*C.uint8_t)(&a[0])
}

// printed returns the text that a call wrote.
func printed(out []C.char, length C.ptrdiff_t) (string, error) {
	if length < 0 {
		return "", Failure(length)
	}
	return C.GoStringN(&out[0], C.int(length)), nil
}

// ---- values in C

func cAddr(addr netip.Addr) (value C.struct_lk_addr) {
	octets := unsafe.Pointer(&value.octets)
	switch {
	case addr.Is4():
		value.version = 4
		*(*[4]byte)(octets) = addr.As4()
	case addr.Is6():
		value.version = 6
		*(*[16]byte)(octets) = addr.As16()
	}
	return value
}

func addrOf(value *C.struct_lk_addr) netip.Addr {
	octets := unsafe.Pointer(&value.octets)
	switch value.version {
	case 4:
		return netip.AddrFrom4(*(*[4]byte)(octets))
	case 6:
		return netip.AddrFrom16(*(*[16]byte)(octets))
	}
	return netip.Addr{}
}

func cEndpoint(endpoint netip.AddrPort) C.struct_lk_endpoint {
	return C.struct_lk_endpoint{addr: cAddr(endpoint.Addr()), port: C.uint16_t(endpoint.Port())}
}

func endpointOf(value *C.struct_lk_endpoint) netip.AddrPort {
	return netip.AddrPortFrom(addrOf(&value.addr), uint16(value.port))
}

// cPrefix returns a prefix that no call accepts if the prefix is invalid: Bits is -1 then.
func cPrefix(prefix netip.Prefix) C.struct_lk_prefix {
	return C.struct_lk_prefix{addr: cAddr(prefix.Addr()), prefix_len: C.uint16_t(prefix.Bits())}
}
