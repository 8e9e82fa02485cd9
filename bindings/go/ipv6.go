package ipwire

/*
#include <ip_wire.h>
*/
import "C"

// IPv6Header is where a header of an IPv6 packet is. What follows it begins at Offset + Len.
type IPv6Header struct {
	Offset   int   // of its first byte in the packet
	Len      int   // of the whole header, in bytes
	Protocol uint8 // its own number; 41: the IPv6 header
	Next     uint8 // the number of what follows it; 59: nothing
}

// IPv6Headers returns the IPv6 header of a packet, and its extension headers. The error is TooShort or BadVersion of the
// IPv6 header, or BadLength if an extension header does not end within the packet and these bytes; then the headers
// before it are returned.
//
// After the header of a fragment that is not the first Next is 59.
func IPv6Headers(packet []byte) ([]IPv6Header, error) {
	var (
		headers []IPv6Header
		header  C.struct_lk_ipv6_header
	)
	ptr, length := memory(packet)
	for {
		switch found := C.lk_next_ipv6_header(ptr, length, &header); {
		case found == 1:
			headers = append(headers, IPv6Header{int(header.offset), int(header.len), uint8(header.protocol), uint8(header.next)})
		case header.is_malformed == 0:
			return headers, nil
		case headers != nil:
			return headers, BadLength
		case length < 40:
			return nil, TooShort
		default:
			return nil, BadVersion
		}
	}
}
